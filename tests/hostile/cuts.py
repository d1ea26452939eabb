"""Plays cut sessions, and inputs and words at each limit, and compares the first line of the output with what the rules give.

usage: cuts.py [--short]

A session is cut after each of its bytes. A cut inside line N leaves a line that is no JSON: `refused N 5`, but where an
earlier line has a fault already. A cut after none, one or two lines: line 1, 2 or 3 is missing. Every other cut is a
session with fewer lines, and the same with and without its last line end. A late client that does not enter on what is left is
told at line 3. WORDS names the words that are tried. With --short one session is cut for each kind of word, and no words are played
that make 100,000 lines.
"""
import os, sys

sys.path.insert(0, os.path.dirname(os.path.abspath(__file__)))
from playing import *
from limits import limits, long_words, words

SHORT = "--short" in sys.argv
WORDS = words_given(EVERY_WORD)
# The words under which a session is what it is under `replay`. Late clients and rooms are none there.
PLAIN = ("check", "replay", "select", "run")
FORMS = [[it] for it in PLAIN]
# What is cut under the other words: a session under `late` and `at`, and a file of rooms.
LATE = "clients-enter-late-and-versions-are-written"


def heads(word, whole):
    """How many lines stand before the op lines."""
    return 1 + 3 * len(json.loads(whole.partition(b"\n")[0])) if takes_rooms(word) else 3


def enters(lines):
    """Whether each late client enters on one of these lines."""
    late = {it["late"] for it in json.loads(lines[2]) if isinstance(it, dict) and "raw" not in it}
    return late <= {it.get("c") for it in map(json.loads, lines[3:]) if it.get("op") == "enter"}


def first_fault(word, whole, at):
    """What is written of the first `at` bytes of a session whose lines have no prefix that is JSON; None where they are a session."""
    lines = whole[:at].split(b"\n")
    last = lines.pop()
    is_inside = last != b"" and whole[at : at + 1] not in (b"\n", b"")
    if last and not is_inside:
        lines.append(last)
    if takes_late(word) and len(lines) > 2 and not enters(lines):
        return b"refused 3 25\n"
    if is_inside:
        return b"refused %d 5\n" % (len(lines) + 1)
    return b"refused %d 2\n" % (len(lines) + 1) if len(lines) < heads(word, whole) else None


def outcomes(out):
    """The outcomes of op lines in a report, or in those of rooms."""
    told = {}
    for part in re.split(rb"^room .*\n", out, flags=re.M):
        for line in part.split(b"\n"):
            if line.startswith((b"client ", b"log ")):
                break
            number, _, outcome = line.partition(b" ")
            if number.isdigit():
                told[int(number)] = outcome
    return told


def is_front(word, played, out, ops):
    """Whether a run of a session's first op lines, so many, tells of them what `out` tells of them in the whole session."""
    if word == "check":
        return played.out.startswith(b"ok %d " % ops)
    if word in ORDERED or word.startswith("at "):
        return True
    told, whole = outcomes(played.out), outcomes(out)
    return len(told) == ops and all(whole[it] == outcome for it, outcome in told.items())


def cut_fault(path, word, at):
    """What is wrong with the runs of the first `at` bytes of a session whose lines have no prefix that is JSON."""
    with open(path, "rb") as file:
        whole = file.read()
    first, cut = first_fault(word, whole, at), whole[:at]
    played = play(word.split(), cut)
    ops = cut.count(b"\n") + (not cut.endswith(b"\n")) - heads(word, whole)
    fault = fault_of(word, played)
    if fault:
        return f"{path} cut after {at} bytes: {fault}"
    if first is not None:
        is_well = (played.status, played.out) == (1, first)
    else:
        is_well = played.status == 0 and is_front(word, played, wanted(path)[1], ops)
    if not is_well:
        return f"{path} cut after {at} bytes: {word} ended with {played.status}: {played.out[:80]!r}"
    fault = fault_of_order(word, cut, played)
    if fault:
        return f"{path} cut after {at} bytes: {fault}"
    if first is None and not cut.endswith(b"\n"):
        ended = play(word.split(), cut + b"\n")
        if not is_answer(word, cut, ended, played):
            return f"{path} cut after {at} bytes: {word} reads another session where the last line ends"
    return None


def refusal_fault(path, at):
    """What is wrong where the words do not agree on a cut of any session, or a cut mends or moves an earlier fault."""
    with open(path, "rb") as file:
        whole = file.read()
    runs = {word: play(word.split(), whole[:at]) for word in WORDS if word in PLAIN}
    for word, played in runs.items():
        fault = fault_of(word, played) or fault_of_order(word, whole[:at], played)
        if fault:
            return f"{path} cut after {at} bytes: {fault}"
    fault = fault_between(runs)
    if fault:
        return f"{path} cut after {at} bytes: {fault}"
    told, full = next(iter(runs.values())), wanted(path)
    full_line = int(full[1].split()[1]) if full[2] == 1 else None
    here = whole[:at].count(b"\n") + 1
    if full_line is not None and full_line < here and (told.status, told.out) != (1, full[1]):
        return f"{path} cut after {at} bytes: {told.out[:80]!r} in place of {full[1]!r}"
    return None


def limit_fault(name, word, make, status, first):
    made = make()
    played = play(word.split(), made, longest=60)
    line = played.out.partition(b"\n")[0].decode()
    if line.split(" ")[0] in ("order", "apart"):
        line = played.out.split(b"\n")[1].decode()
    if played.status == status and line == (line if first is None else first):
        fault = fault_of(word, played) or fault_of_order(word, made, played, 60)
        return fault and f"{name}: {fault}"
    return f"{name}: {word} ended with {played.status}, {line[:80]!r} in place of {status}, {first!r}"


def words_fault(given, status, first):
    """What is wrong with what these words do; whatever the input is, `gen` does not read it."""
    played = play(given, b"\xff", longest=300)
    line = played.out.partition(b"\n")[0].decode()
    told = played.err if status == 0 else played.err.partition(b" ")[0] + b" "
    if (played.status, line, told) == (status, first, TOLD[status]):
        return None
    return f"the words {given}: status {played.status}, {line[:80]!r} in place of {status}, {first!r}"


def cut_files(word):
    """The files that are cut under a word."""
    if takes_rooms(word):
        more = f"{TOP}/tests/sessions/each-room-is-played-by-its-own-lines/each-room-is-played-by-itself.session"
        return [f"{TOP}/examples/rooms.session", *([] if SHORT else [more])]
    if takes_late(word):
        return [f"{TOP}/tests/sessions/{LATE}/{it}.session" for it in (("01",) if SHORT else ("01", "55", "500128"))]
    if SHORT:
        return [f"{TOP}/examples/plan.session"]
    return [it for it in sessions() if "/examples/" in it and wanted(it)[0] == ["replay"]]


def places(path, word):
    """After how many bytes a file is cut: after each; in the short form after each fifth where others cut the first lines."""
    every = range(os.path.getsize(path) + 1)
    return every[::5] if SHORT and word not in ("check", "replay", "run") else every


def tasks():
    for word in WORDS:
        for path in cut_files(word):
            for at in places(path, word):
                yield "cut", path, word, at
    plain = [it for it in WORDS if it in PLAIN]
    if plain and not SHORT:
        for path in [it for it in sessions() if it.endswith("0.session") and wanted(it)[0][:1] in FORMS][:60]:
            for at in range(os.path.getsize(path) + 1):
                yield "refusal", path, at
    for at in [*words(), *([] if SHORT else long_words())]:
        yield "words", *at
    for at, (_, _, wants) in enumerate(limits()):
        for word in WORDS:
            if takes_rooms(word) or SHORT and word not in ("check", "replay", "run"):
                continue
            # The outcome of a line under `run` is that under `replay` in these inputs. Where no first line is given, the
            # status of `check`, or 0, and a report of some kind are wanted.
            told = wants.get("replay" if word in ("run", "select", "late") else word)
            status, first = wants.get("any") or told or (wants.get("check", (0,))[0], None)
            yield "limit", at, word, status, first


def judge(task):
    kind, *rest = task
    if kind == "limit":
        at, word, status, first = rest
        name, make, _ = limits()[at]
        return limit_fault(name, word, make, status, first)
    return {"cut": cut_fault, "refusal": refusal_fault, "words": words_fault}[kind](*rest)


if __name__ == "__main__":
    need_program()
    FAULTS, COUNT = each(judge, tasks())
    end(COUNT - len(FAULTS), len(FAULTS))
