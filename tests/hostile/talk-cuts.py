"""Plays talks of the live authority that are cut after a byte, and with each line cut in two.

usage: talk-cuts.py [--short]

Where the input ends inside a line, what is left of the line is no JSON: line 1 or 2 is told so, and ends the talk with status 1;
a later one is answered fault 5, and the lines before it what they are answered in the whole talk. Each line of a talk of 300 lines
of all kinds (talks.py) is told in two parts, cut after each of its bytes, and then whole: the parts are faults and change nothing.
With --short the talk has 40 lines, and the input ends after each fifth byte. PM_LIVE names the program.
"""
import os, sys

sys.path.insert(0, os.path.dirname(os.path.abspath(__file__)))
from playing import *
from talks import LIVE, need_live, opening, talk

SHORT = "--short" in sys.argv
NO_JSON = b'{"fault":5}\n'
with open(f"{TOP}/crates/pm_live/stdin", "rb") as FILE:
    WHOLE = FILE.read()
with open(f"{TOP}/crates/pm_live/stdout", "rb") as FILE:
    ANSWERS = FILE.read().splitlines(keepends=True)


def told(given, longest=60):
    return play(LIVE.split()[1:], given, None, longest, LIVE.split()[0])


def is_json(text):
    try:
        json.loads(text)
    except ValueError:
        return False
    return True


def end_fault(at):
    """What is wrong where the input ends after so many bytes of the crate's talk."""
    cut = WHOLE[:at]
    whole, last = cut.count(b"\n"), cut.rpartition(b"\n")[2]
    is_line = last and is_json(last) and WHOLE[at : at + 1] == b"\n"
    here = whole + bool(is_line)
    if last and not is_line and whole < 2:
        status, out = 1, b'{"fault":5,"line":%d}\n' % (whole + 1)
    elif here < 2:
        status, out = 1, b'{"fault":2,"line":%d}\n' % (here + 1)
    else:
        # A line that is no JSON anyway has its own answer where it is cut at its end.
        status, out = 0, b"".join(ANSWERS[: here - 1]) + (NO_JSON if last and not is_line else b"")
    ran = told(cut)
    if (ran.status, ran.out, ran.err) == (status, out, b""):
        return None
    return f"cut after {at} bytes: status {ran.status}, {ran.out[-200:]!r} in place of {status}, {out[-200:]!r}"


def is_cut(line, at):
    """Whether neither part of a line is JSON. A part may not be UTF-8."""
    return not any(is_json(part.decode("utf-8", "replace")) for part in (line[:at], line[at:]))


def parts_fault(lines):
    """What is wrong where each line after the opening is told in two parts, cut after each byte, and then whole."""
    given, wants = [], []
    plain = told("".join(it + "\n" for it in lines).encode()).out.split(b"\n")
    for at, line in enumerate(lines):
        line = line.encode()
        for cut in range(1, len(line)) if at > 1 else ():
            if is_cut(line, cut):
                given += [line[:cut], line[cut:]]
                wants += [NO_JSON[:-1]] * 2
        given.append(line)
        if at > 0:
            wants.append(plain[at - 1])
    ran = told(b"".join(it + b"\n" for it in given), 600)
    if (ran.status, ran.err) == (0, b"") and ran.out == b"".join(it + b"\n" for it in wants):
        return len(given), None
    got = ran.out.split(b"\n")
    at = next((at for at, (one, other) in enumerate(zip(got, wants)) if one != other), min(len(got), len(wants)))
    line = given[at + 1 if at + 1 < len(given) else -1]
    return len(given), f"status {ran.status}, {line[:200]!r} is answered {got[at][:200]!r} in place of {wants[at : at + 1]!r}"


if __name__ == "__main__":
    need_live()
    FAULTS, COUNT = each(end_fault, range(0, len(WHOLE) + 1, 5 if SHORT else 1))
    LINES, FAULT = parts_fault([*opening(), *talk(2, 40 if SHORT else 300)])
    if FAULT:
        FAULTS.append(FAULT)
        print(f"talk-cuts: {FAULT}")
    print(f"talk-cuts: {LINES} lines and parts of lines in one talk")
    end(COUNT + 1 - len(FAULTS), len(FAULTS))
