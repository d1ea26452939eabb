"""Plays talks of the live authority with one allocation refused in each line, and with reads and writes that fail or are short.

usage: failing-talks.py LIBRARY [--short]

LIBRARY is failing.c, built. A talk of 300 lines of all kinds (talks.py) has each line twice, and allocation N of the first of each
two is refused, for each N: where the line has as many it is answered that there is no memory, and the second as the first is in an
undisturbed talk; no other answer changes. Lines 1 and 2 are told again by themselves. A shorter talk is played with each read and each
write failing or short, after each byte. With --short the talk has 40 lines, and of the bytes and allocations some are tried.
PM_LIVE names the program, and JOBS says how many runs go side by side.
"""
import os, sys, tempfile

sys.path.insert(0, os.path.dirname(os.path.abspath(__file__)))
from playing import *
from talks import LIVE, MEMORY, need_live, opening, talk

LIBRARY, SHORT = os.path.abspath(sys.argv[1]), "--short" in sys.argv


def joined(lines):
    return "".join(it + "\n" for it in lines).encode("utf-8", "surrogatepass")


def told(lines, **variables):
    """Plays lines, or bytes, with these variables of the library."""
    made = {"LD_PRELOAD": LIBRARY, **{key: str(it) for key, it in variables.items()}}
    given = lines if isinstance(lines, bytes) else joined(lines)
    return play(LIVE.split()[1:], given, made, 60, LIVE.split()[0])


def counted(lines):
    """An undisturbed run; and how many allocations, reads, writes, and at most allocations of one line it had."""
    with tempfile.NamedTemporaryFile("r") as file:
        ran = told(lines, COUNTS=file.name)
        return ran, [int(it) for it in file.read().split()]


def picked(last, most):
    """The numbers from 1 to the last; in the short form about so many of them."""
    if not SHORT or last <= most:
        return range(1, last + 1)
    return sorted({*range(1, 6), *range(1, last + 1, last // most + 1), last})


def shown(ran):
    return f"status {ran.status}, {len(ran.out)} bytes written, {ran.err[-200:]!r}"


# ---- what is judged: each gives a fault or None, and how many lines were refused


def in_turn(n, lines, whole):
    """Allocation N of every other line is refused. The lines after the opening are pairs of equal ones."""
    ran = told(lines, REFUSE_TURN=n)
    wants, got, refused = whole.out.split(b"\n"), ran.out.split(b"\n"), 0
    if (ran.status, ran.err, len(got)) != (0, b"", len(wants)) or got[0] != wants[0]:
        return f"allocation {n} of each line: {shown(ran)}", 0
    for at in range(1, len(wants) - 1, 2):
        if got[at] == MEMORY:
            refused += 1
            is_well = got[at + 1] == wants[at]
        else:
            is_well = got[at : at + 2] == wants[at : at + 2]
        if not is_well:
            line = lines[1 + at]
            return f"allocation {n} of {line[:200]}: {got[at][:200]!r} and then {got[at + 1][:200]!r}, wanted {wants[at][:200]!r}", refused
    return None, refused


def in_opening(n, lines, whole):
    """Allocation N of the talk is refused, before the third line. What was refused is told again."""
    first, second, *rest = lines
    ran = told(lines, REFUSE_ALLOC=n)
    if (ran.status, ran.out, ran.err) == (5, b"", TOLD[5]):
        return None, 1
    if (ran.status, ran.out, ran.err) == (0, whole.out, b""):
        return None, 0
    for again in ([first, first, second, *rest], [first, second, second, *rest]):
        ran = told(again, REFUSE_ALLOC=n)
        if (ran.status, ran.out, ran.err) == (0, MEMORY + b"\n" + whole.out, b""):
            return None, 1
    return f"allocation {n} of the opening: {shown(ran)}", 0


def from_then_on(n, lines, whole):
    """Allocation N and all later ones are refused: from some line on each is told so, or has a fault for which none is needed."""
    ran = told(lines, REFUSE_ALLOC=n, REFUSE_REST=1)
    if (ran.status, ran.out, ran.err) == (5, b"", TOLD[5]):
        return None, 1
    wants, got = whole.out.split(b"\n"), ran.out.split(b"\n")
    at = next((at for at, (one, other) in enumerate(zip(wants, got)) if one != other), len(wants))
    is_well = ran.err == b"" and all(it == MEMORY or it.startswith(b'{"fault":') for it in got[at:-1])
    # Where line 1 or 2 was refused, no line opens the talk any more, and the end of input misses one.
    is_well = is_well and ran.status in ((0,) if got[0] == wants[0] else (0, 1))
    return (None if is_well else f"allocation {n} and all later: {shown(ran)}"), max(0, len(got) - 1 - at)


def ended(variables, status, given, out):
    """A read or a write fails or is short: this status, and this written."""
    ran = told(given, **variables)
    if (ran.status, ran.out, ran.err) == (status, out, TOLD[status]):
        return None, 0
    return f"{variables}: {shown(ran)} in place of status {status}, {len(out)} bytes", 0


# ---- what is tried


def ends():
    """Runs of a short talk whose reads or writes fail or are short."""
    with open(f"{TOP}/crates/pm_live/stdin", "rb") as file:
        given = file.read()
    with open(f"{TOP}/crates/pm_live/stdout", "rb") as file:
        out = file.read()
    answers = out.splitlines(keepends=True)
    _, (_, reads, writes, _) = counted(given)
    yield "ended", {}, 0, given, out
    for key in ("SHORT_READS", "SHORT_WRITES"):
        yield "ended", {key: 1}, 0, given, out
    for n in range(1, reads + 1):
        for key in ("SHORT_READ", "HALF_READ"):
            yield "ended", {key: n}, 0, given, out
    for n in picked(len(given), 40):
        yield "ended", {"FIRST_READ": n}, 0, given, out
        # One byte after another comes, and then a read fails: the lines that came whole are answered.
        whole = b"".join(answers[: max(0, given[: n - 1].count(b"\n") - 1)])
        for more in ({}, {"INTERRUPT": 1}):
            yield "ended", {"SHORT_READS": 1, "FAIL_READ": n, **more}, 3, given, whole
    for n in range(1, writes + 1):
        front = b"".join(answers[: n - 1])
        yield "ended", {"FAIL_WRITE": n}, 4, given, front
        yield "ended", {"HALF_WRITE": n}, 0, given, out
        # What is left after a short write fails.
        yield "ended", {"HALF_WRITE": n, "FAIL_WRITE": n + 1}, 4, given, front + answers[n - 1][: len(answers[n - 1]) // 2]
    for n in picked(len(out), 40):
        for more in ({}, {"INTERRUPT": 1}):
            yield "ended", {"SHORT_WRITES": 1, "FAIL_WRITE": n, **more}, 4, given, out[: n - 1]


def tasks():
    made = talk(1, 40 if SHORT else 300)
    lines = [*opening(), *(it for it in made for _ in range(2))]
    whole, (_, _, writes, most) = counted(lines)
    answers = whole.out.count(b"\n")
    print(f"failing-talks: {len(made)} lines, of which one has up to {most} allocations", flush=True)
    if writes != answers or (whole.status, whole.err) != (0, b""):
        yield "ended", {"COUNTS": "/dev/null"}, 0, joined(lines), b"each answer is one write"
    for n in picked(most, 60):
        yield "in_turn", n, lines, whole
    few = [*opening(), '{"op":"since","version":0}', '{"op":"doc"}']
    whole, _ = counted(few)
    _, (allocs, *_) = counted(opening())
    for n in picked(allocs, 60):
        yield "in_opening", n, few, whole
        yield "from_then_on", n, few, whole
    short = lines[: 2 + 40]
    whole, (allocs, *_) = counted(short)
    for n in picked(allocs, 40):
        yield "from_then_on", n, short, whole
    yield from ends()


def judge(task):
    kind, *rest = task
    return {"in_turn": in_turn, "in_opening": in_opening, "from_then_on": from_then_on, "ended": ended}[kind](*rest)


if __name__ == "__main__":
    need_live()
    COUNT = FAILED = REFUSED = 0
    with multiprocessing.Pool(JOBS) as POOL:
        for FAULT, MANY in POOL.imap_unordered(judge, tasks(), chunksize=4):
            COUNT, REFUSED = COUNT + 1, REFUSED + MANY
            if FAULT:
                FAILED += 1
                print(f"failing-talks: {FAULT}", flush=True)
    print(f"failing-talks: {REFUSED} lines were refused memory")
    end(COUNT - FAILED, FAILED)
