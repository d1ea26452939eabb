"""Plays sessions with one allocation refused, one read or write that fails or is short, and with bad ends of other kinds.

usage: failing.py LIBRARY [--short]

LIBRARY is failing.c, built. WORDS names the words that are tried. With --short a few sessions are played, and of the
allocations those at the start, at the end and some between. The words for rooms, for late clients and for events that lie apart
have sessions of their own.
"""
import os, sys, tempfile

sys.path.insert(0, os.path.dirname(os.path.abspath(__file__)))
from playing import *

LIBRARY, SHORT = os.path.abspath(sys.argv[1]), "--short" in sys.argv
WORDS = words_given(EVERY_WORD)
# Twenty sessions of tests/sessions/ that show each kind of line, steps of each kind, raw clients and refusals.
CHOSEN = """
a-forger-among-editors/04
an-input-is-split-at-line-feeds-and-read-as-utf8/no-line-end-at-the-end
the-first-three-lines-are-read-and-counted/1012
the-first-three-lines-are-read-and-counted/1015
each-fault-has-its-code/001
documents-nest-up-to-a-limit/01
each-client-undoes-its-own/01
edits-under-many-schemas-make-their-steps/1001
edits-under-many-schemas-make-their-steps/1072
events-are-undone-and-redone/01
one-fault-in-a-file-is-told-with-its-line/1003
late-lost-and-repeated-answers/01
messages-and-answers-come-late-or-never/01
one-client-steps-and-pushes-in-a-paragraph/1062
raw-clients-present-what-the-file-writes/01
steps-under-many-schemas-apply-or-are-refused/1000
steps-under-many-schemas-apply-or-are-refused/1062
texts-and-deletions-of-three-clients-meet/01
edits-undo-and-redo-of-several-clients-meet/1002
edits-undo-and-redo-of-several-clients-meet/1076
""".split()
LATE = """
clients-enter-late-and-versions-are-written/01
clients-enter-late-and-versions-are-written/26
clients-enter-late-and-versions-are-written/47
clients-enter-late-and-versions-are-written/55
clients-enter-late-and-versions-are-written/500128
""".split()
ROOMS = """
people-in-rooms/a-line-of-no-room
people-in-rooms/a-raw-person-and-an-editor
people-in-rooms/one-person-goes-through-three-rooms
people-in-rooms/the-second-room-has-no-clients
people-in-rooms/who-presents-comes-first-in-each-room
each-room-is-played-by-its-own-lines/each-room-is-played-by-itself
""".split()
APART = [f"own-events-are-undone-by-number/{it}" for it in ("01", "03", "05", "09")]


def at_places(names):
    """The paths of sessions of tests/sessions/."""
    return [f"{TOP}/tests/sessions/{it}.session" for it in names]


def chosen(word):
    """The sessions that are played under a word. In the short form they are four, and of a word with its own the first of these."""
    examples = [it for it in sessions() if "/examples/" in it]
    if takes_rooms(word):
        own = [f"{TOP}/examples/rooms.session", *at_places(ROOMS)]
    elif takes_late(word):
        own = [*at_places(LATE), *examples]
    elif word == "select":
        own = [f"{TOP}/examples/review.session", *at_places(APART), *examples]
    else:
        short = ("first.session", "plan.session", "refusals.session", "rooms.session")
        return [it for it in examples if it.endswith(short)] if SHORT else examples + at_places(CHOSEN)
    return own[:1] if SHORT else own


def spoilt(variables, **more):
    return {"LD_PRELOAD": LIBRARY, **{key: str(it) for key, it in {**variables, **more}.items()}}


def counted(path, word):
    """Returns a whole run, and how many allocations, reads and writes it made."""
    with tempfile.NamedTemporaryFile("r") as file:
        whole = play(word.split(), path, spoilt({"COUNTS": file.name}))
        return whole, [int(it) for it in file.read().split()][:3]


def read(path):
    with open(path, "rb") as file:
        return file.read()


def refused(path, word, whole, variables):
    """An allocation is refused: the whole answer, or status 5 and nothing written."""
    played = play(word.split(), path, spoilt(variables))
    if is_answer(word, read(path), played, whole) and played.err == whole.err:
        return None
    if (played.status, played.out, played.err) == (5, b"", TOLD[5]):
        return None
    return f"{path}: {word} with {variables}: status {played.status}, {len(played.out)} bytes written, {played.err[-200:]!r}"


def ended(path, word, whole, variables, status):
    """A read or a write fails or is short: the status of the table and what may be written with it."""
    played = play(word.split(), path, spoilt(variables))
    if status is None:
        is_well = is_answer(word, read(path), played, whole)
    elif status == 3:
        is_well = (played.status, played.out, played.err) == (3, b"", TOLD[3])
    else:
        has_order = word in ORDERED and whole.status == 0
        front = whole.out[: len(played.out)] == played.out or has_order
        is_well = (played.status, played.err) == (4, TOLD[4]) and front and len(played.out) < len(whole.out)
        # The report of another order may be shorter, and end before the write that was to fail.
        if has_order and len(played.out) < variables["FAIL_WRITE"]:
            is_well = is_well or is_answer(word, read(path), played, whole)
    if is_well:
        return None
    return f"{path}: {word} with {variables}: status {played.status}, {len(played.out)} bytes written, {played.err[-200:]!r}"


def picked(last):
    """The numbers from 1 to the last, and in the short form some of them."""
    every = range(1, last + 1)
    if not SHORT or last < 400:
        return every
    step = last // 300 + 1
    return sorted({*every[:60], *every[-60:], *every[::step]})


def tasks():
    """Yields each run of one session under one word with one fault."""
    for path, word in ((path, word) for word in WORDS for path in chosen(word)):
        words, out, status = wanted(path)
        whole, (allocs, reads, writes) = counted(path, word)
        if word.split() == words and not is_answer(word, read(path), whole, whole._replace(out=out, status=status)):
            yield "told", f"{path}: {word} does not write what is stored"
        for n in picked(allocs):
            yield "refused", path, word, whole, {"REFUSE_ALLOC": n}
            if not SHORT or n % 7 == 0:
                yield "refused", path, word, whole, {"REFUSE_ALLOC": n, "REFUSE_REST": 1}
        yield from ends(path, word, whole, reads, writes)


def ends(path, word, whole, reads, writes):
    """Yields the runs with a read or a write that fails or is short."""
    for i in range(1, reads + 1):
        yield "ended", path, word, whole, {"FAIL_READ": i}, 3
        yield "ended", path, word, whole, {"FAIL_READ": i, "INTERRUPT": 1}, 3
        yield "ended", path, word, whole, {"SHORT_READ": i}, None
        yield "ended", path, word, whole, {"HALF_READ": i}, None
    yield "ended", path, word, whole, {"SHORT_READS": 1}, None
    for i in range(1, writes + 1):
        yield "ended", path, word, whole, {"FAIL_WRITE": i}, 4
        yield "ended", path, word, whole, {"FAIL_WRITE": i, "INTERRUPT": 1}, 4
        yield "ended", path, word, whole, {"SHORT_WRITE": i}, None
        yield "ended", path, word, whole, {"HALF_WRITE": i}, None
        # What is left after a short write fails.
        yield "ended", path, word, whole, {"HALF_WRITE": i, "FAIL_WRITE": i + 1}, 4
    yield "ended", path, word, whole, {"SHORT_WRITES": 1}, None
    # So many single bytes are taken, and then a write fails.
    for i in (2, 3, 6, len(whole.out)):
        yield "ended", path, word, whole, {"SHORT_WRITES": 1, "FAIL_WRITE": i}, 4


def judge(task):
    kind, *rest = task
    return {"told": lambda it: it, "refused": refused, "ended": ended}[kind](*rest)


if __name__ == "__main__":
    need_program()
    FAULTS, COUNT = each(judge, tasks())
    end(COUNT - len(FAULTS), len(FAULTS))
