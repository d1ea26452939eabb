"""Times the answer to a letter that one editor submits: by the Python package in this process, or by the live authority over pipes.

The same as bench/library.c: the editor types ten letters and takes them back, in the middle of a document of paragraphs of 200
tokens. Writes the microseconds of an answer, those of the processor for both ends, and the document at the end. Both sides make JSON of
the message and read it from the answer, by the package's own functions, so that they differ by the way to the engine alone.
usage: library.py inside|PROGRAM TOKENS WARM LETTERS       PROGRAM is the live authority's; WARM letters are not timed
"""

import json
import subprocess
import sys
import time
from typing import Any, Tuple

from gezhufet import Authority
from gezhufet.conversation import line_of, value_of

SCHEMA = {
    "nodes": [{"name": "doc", "content": "paragraph+"}, {"name": "paragraph", "content": "text*"}, {"name": "text"}],
    "version": 2,
}
PARAGRAPH = {"type": "paragraph", "content": [{"type": "text", "text": ("abcdefghi " * 20)[:198]}]}
IN_A_ROW = 10
LETTER = {"content": [{"type": "text", "text": "x"}]}


class Outside:
    """The live authority."""

    def __init__(self, program: str, doc: Any) -> None:
        self.process = subprocess.Popen([program], stdin=subprocess.PIPE, stdout=subprocess.PIPE)
        self.process.stdin.write(line_of(SCHEMA) + b"\n")
        self.tell(doc)

    def busy(self) -> float:
        """The processor's seconds of the process, by its clock's number in Linux."""
        return time.clock_gettime(~self.process.pid << 3 | 2)

    def tell(self, message: Any) -> Any:
        self.process.stdin.write(line_of(message) + b"\n")
        self.process.stdin.flush()
        return value_of(self.process.stdout.readline())


def submission(number: int, middle: int) -> Any:
    """The letter of this number is typed, or the last one of ten is taken back."""
    within = number % (2 * IN_A_ROW)
    if within < IN_A_ROW:
        step = {"stepType": "replace", "slice": LETTER, "from": middle + within, "to": middle + within}
    else:
        at = middle + 2 * IN_A_ROW - 1 - within
        step = {"stepType": "replace", "from": at, "to": at + 1}
    return {"clientID": 0, "op": "submit", "steps": [step], "version": number}


def main(side: str, tokens: int, warm: int, letters: int) -> None:
    doc = {"type": "doc", "content": [PARAGRAPH] * (tokens // 200)}
    authority = Authority(SCHEMA, doc) if side == "inside" else Outside(side, doc)

    def times() -> Tuple[float, float]:
        return time.perf_counter(), time.process_time() + (0 if side == "inside" else authority.busy())

    for number in range(warm + letters):
        if number == warm:
            start = times()
        if "accepted" not in authority.tell(submission(number, tokens // 2 + 101)):
            sys.exit("library: a letter is not accepted")
    print(*((end - begin) / letters * 1e6 for begin, end in zip(start, times())))
    print(json.dumps(authority.tell({"op": "doc"}), sort_keys=True, separators=(",", ":")), flush=True)


main(sys.argv[1], *map(int, sys.argv[2:]))
