#!/usr/bin/env python3
"""Plays sessions through the library's talks, one of an authority and one of each client, and compares with what `replay` reports.

    tests/library/play.py [--made COUNT [--from NUMBER]] [FOLDER..]

Played are the files NAME.session and NAME.in of the folders (else those of tests/sessions and examples) whose clients are editors
that are there from the first, and so many sessions made from a number, the first of which is NUMBER or 0. What is left out is
counted by why. The whole report is compared: each outcome, and each client's version, pending and dropped steps, cursors and document
before and after they settle. A session whose talks differ is told with the first line that does. The last line is `N passed, M failed`.
The variable PROGRAM names another program than crates/pm_program/out/pm_program, GEZHUFET_LIBRARY another library than out/ has, and
JOBS how many sessions are played side by side.
"""

import collections
import json
import multiprocessing
import os
import subprocess
import sys
from typing import Any, Counter, Dict, Iterator, List, NamedTuple, Optional, Tuple, Union

HERE = os.path.dirname(os.path.abspath(__file__))
TOP = os.path.dirname(os.path.dirname(HERE))
sys.path[:0] = [f"{TOP}/bindings/python", HERE]
PROGRAM = os.environ.get("PROGRAM", f"{TOP}/crates/pm_program/out/pm_program")
JOBS = int(os.environ.get("JOBS", len(os.sched_getaffinity(0))))
FOLDERS = [f"{TOP}/tests/sessions", f"{TOP}/examples"]
# How many fields of the summary of `gen` a report has: the lines, the log, the dropped steps, the size.
SUMMED = ("lines", "log", "dropped")

import drawing  # noqa: E402
import playing  # noqa: E402


class Made(NamedTuple):
    """A session that is made of three numbers."""

    clients: int
    rounds: int
    number: int

    def __str__(self) -> str:
        return f"gen {self.clients} {self.rounds} {self.number}"


class Outcome(NamedTuple):
    """What became of a case: why it was left out, or what differs, or neither of them."""

    case: str
    left_out: Optional[str] = None
    differs: Optional[str] = None
    played: Optional[playing.Played] = None


Case = Union[str, Made]


def run(words: List[str], given: bytes = b"") -> Tuple[int, str]:
    ran = subprocess.run([PROGRAM, *words], input=given, capture_output=True, timeout=120, check=False)
    return ran.returncode, ran.stdout.decode()


# ---- which sessions


def files(folders: List[str]) -> Iterator[str]:
    for folder in folders:
        for at, _, names in sorted(os.walk(folder)):
            yield from (f"{at}/{it}" for it in sorted(names) if it.endswith((".session", ".in")))


def made(count: int, first: int) -> Iterator[Made]:
    for at in range(first, first + count):
        clients = 2 + at % 4
        yield Made(clients, 10 + 7 * (at % 9), (1_000_003 * at + 17) % 2**64)


def other_kind(lines: List[bytes]) -> Optional[str]:
    """Why the first lines are of no session of editors that are there from the first, where they are JSON."""
    try:
        if isinstance(json.loads(lines[0]), list):
            return "a file of many rooms"
        clients = json.loads(lines[2])
    except (IndexError, ValueError, RecursionError):
        return None
    kinds = [it for it in clients if isinstance(it, dict)] if isinstance(clients, list) else []
    if any(it.get("raw") is not None for it in kinds):
        return "a raw client"
    if any("late" in it for it in kinds):
        return "a client that comes late"
    return None


# ---- what is compared


def difference(wanted: List[str], got: List[str]) -> Optional[str]:
    for one, other in zip(wanted, got):
        if one != other:
            return f"wanted {one}\n  got    {other}"
    return None if len(wanted) == len(got) else f"wanted {len(wanted)} lines, got {len(got)}"


def judged(name: str, lines: List[Any], report: str) -> Outcome:
    try:
        played = playing.played(lines)
    except Exception as error:
        return Outcome(name, differs=f"{type(error).__name__}: {error}")
    return Outcome(name, differs=difference(report.splitlines(), played.report), played=played)


def summed(report: List[str]) -> Dict[str, int]:
    """What the summary of `gen` tells of a report, but for the document's size."""
    ops = sum(not it.startswith(("client ", "log ", "settled ", "final ")) for it in report)
    log = next(int(it.split()[1]) for it in report if it.startswith("log "))
    dropped = sum(len(json.loads(it.split()[3])) for it in report if it.startswith("settled "))
    return {"lines": ops - log, "log": log, "dropped": dropped}


def judge_made(case: Made) -> Outcome:
    lines = drawing.drawn(*case)
    session = "".join(playing.dumped(it) + "\n" for it in lines).encode()
    outcome = judged(str(case), lines, run(["replay"], session)[1])
    if outcome.played:
        told = dict(it.split(" ", 1) for it in run([*str(case).split()])[1].splitlines())
        sums = summed(outcome.played.report)
        if any(told.get(key) != str(sums[key]) for key in SUMMED):
            return outcome._replace(differs=f"gen tells {told}, and the report {sums}")
    return outcome


def judge(case: Case) -> Outcome:
    if isinstance(case, Made):
        return judge_made(case)
    with open(case, "rb") as file:
        lines = file.read().split(b"\n")
    kind = other_kind(lines)
    if kind:
        return Outcome(case, left_out=kind)
    status, report = run(["replay"], b"\n".join(lines))
    if status == 1:
        return Outcome(case, left_out="no session")
    if status != 0:
        return Outcome(case, differs=f"replay ends with status {status}")
    return judged(case, [json.loads(it) for it in lines[: len(lines) - (not lines[-1])]], report)


# ---- the count


def show(outcomes: List[Outcome]) -> int:
    left_out: Counter[str] = collections.Counter(it.left_out for it in outcomes if it.left_out)
    wrong = [it for it in outcomes if it.differs]
    played = [it.played for it in outcomes if it.played]
    for it in wrong:
        print(f"play: {os.path.relpath(it.case, TOP) if os.path.exists(it.case) else it.case}:\n  {it.differs}"[:1000])
    for why, count in sorted(left_out.items()):
        print(f"play: left out: {count}, for {why}")
    ops, rebases, carried, without = (sum(getattr(it, key) for it in played) for key in ("ops", "rebases", "carried", "without_steps"))
    print(f"play: {ops} op lines; others' steps taken over {rebases} times, and {carried} pending steps carried past them")
    print(f"play: {without} times without steps for a view")
    count = len(outcomes) - sum(left_out.values()) - len(wrong)
    print(f"{count} passed, {len(wrong)} failed")
    return 1 if wrong else 0


def main(words: List[str]) -> int:
    count = first = 0
    if words[:1] == ["--made"] and len(words) > 1 and words[1].isdigit():
        count, words = int(words[1]), words[2:]
        if words[:1] == ["--from"] and len(words) > 1 and words[1].isdigit():
            first, words = int(words[1]), words[2:]
    if any(not os.path.isdir(it) for it in words):
        print(__doc__, file=sys.stderr)
        return 2
    if not os.access(PROGRAM, os.X_OK):
        print(f"there is no program at {PROGRAM}; ./pm build makes it", file=sys.stderr)
        return 2
    cases: List[Case] = [*files(words or FOLDERS), *made(count, first)]
    with multiprocessing.Pool(JOBS) as pool:
        return show(pool.map(judge, cases, chunksize=4))


if __name__ == "__main__":
    sys.exit(main(sys.argv[1:]))
