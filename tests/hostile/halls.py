"""Plays a hall of sixteen rooms and eight people many times under `runrooms`.

usage: halls.py [RUNS]

Each person types and pushes, and pulls now and then, in each room, and goes from room to room. The order that is printed for a
room has each of the room's lines once, and each person's in file order. The room's part has to be what `rooms` writes of that
room alone, with its lines in that order, but for the numbers of the lines, which are those of the file.
"""
import os, sys

sys.path.insert(0, os.path.dirname(os.path.abspath(__file__)))
from playing import *

RUNS = int(sys.argv[1]) if len(sys.argv) > 1 else 100
ROOMS = [f"r{it}" for it in range(16)]
PEOPLE = "abcdefgh"
TURNS = 6


def line(room, person, **op):
    return json.dumps({"room": room, "c": person, **op})


def hall():
    """Returns the file."""
    types = [{"name": "doc", "content": "paragraph+"}, {"name": "paragraph", "content": "text*"}, {"name": "text"}]
    text = {"type": "paragraph", "content": [{"type": "text", "text": "In the beginning"}]}
    lines = [json.dumps(ROOMS)]
    for _ in ROOMS:
        lines += [json.dumps({"nodes": types}), json.dumps({"type": "doc", "content": [text]}), json.dumps([*PEOPLE])]
    for turn in range(TURNS):
        for at in range(len(ROOMS) * len(PEOPLE)):
            room = ROOMS[(5 * at + turn) % len(ROOMS)]
            person = PEOPLE[(at + at // len(ROOMS) + turn) % len(PEOPLE)]
            if turn % 3 == 2:
                lines.append(line(room, person, op="pull"))
                continue
            place = (at + turn) % 4 + 1
            lines.append(line(room, person, op="text", **{"from": place}, to=place, text=person.upper()))
            lines.append(line(room, person, op="push"))
    return "\n".join(lines).encode() + b"\n"


FILE = hall()


def judge(run):
    """Plays the file once. Returns the orders that were printed, and what is wrong."""
    played = play(["runrooms"], FILE, longest=60)
    orders = re.findall(rb"^order.*$", played.out, re.M)
    return orders, fault_of("runrooms", played) or fault_of_order("runrooms", FILE, played, 60)


if __name__ == "__main__":
    need_program()
    with multiprocessing.Pool(JOBS) as pool:
        told = pool.map(judge, range(RUNS), chunksize=1)
    for run, (_, fault) in enumerate(told):
        if fault:
            print(f"halls: run {run}: {fault}")
    print(f"halls: {len({tuple(orders) for orders, _ in told})} orders in {RUNS} runs")
    failed = sum(fault is not None for _, fault in told)
    end(RUNS - failed, failed)
