#!/usr/bin/env python3
"""Plays inputs of growing size by the built program, and prints how time, memory and stack grow.

usage: bench/growth.py [ROW..]     all rows, or those whose names have one of these words

Each row is played at n, 2n and 4n. A time is the processor's, the median of seven runs, or of three where one takes a second,
in milliseconds; `x` is how many times longer the last took than the first, which is 4 where time is in proportion and 16 where
it grows with the square.
`MB` is the greatest resident memory at 4n, in megabytes. `stack` is the least of 16, 32, 64 and so on kilobytes (`ulimit -s`) with
which the run at n, and that at 4n, ends as it does with the usual stack.
"""
import json, os, subprocess, sys, tempfile, time

TOP = os.path.dirname(os.path.dirname(os.path.abspath(__file__)))
PROGRAM = os.environ.get("PROGRAM", f"{TOP}/crates/pm_program/out/pm_program")
# The seconds and the bytes of memory that a run may take.
LONGEST, MOST = 120, 12_000_000_000
BASE = [
    {"name": "doc", "content": "block+"},
    {"name": "p", "content": "text*", "group": "block"},
    {"name": "q", "content": "block+", "group": "block"},
    {"name": "text"},
]
ROWS = {}


def row(name, word, n):
    """Declares a row: what is made of a number is a session."""
    return lambda make: ROWS.setdefault(name, (word, n, make))


def dumped(value):
    return value if isinstance(value, str) else json.dumps(value, separators=(",", ":"))


def session(nodes=None, doc=None, ops=(), clients=("a",), marks=()):
    schema = nodes if isinstance(nodes, str) else {"nodes": nodes or BASE, "marks": list(marks)}
    return "\n".join(map(dumped, [schema, doc, list(clients), *ops])) + "\n"


def op(client="a", **fields):
    return {"c": client, **fields}


def typed(count, client="a", at=1):
    return [op(client, op="text", **{"from": at, "to": at, "text": "x"})] * count


def paragraphs(count, text=None):
    one = {"type": "p", "content": [{"type": "text", "text": text}]} if text else {"type": "p"}
    return {"type": "doc", "content": [one] * count}


def content(text, more=()):
    return [{"name": "doc", "content": text}, BASE[1], {"name": "l"}, BASE[3], *more]


def in_group(count):
    return [{"name": f"g{it}", "group": "g"} for it in range(count)]


row("lists within one another in a line, bytes", "check", 250_000)(lambda n: session(doc="[" * n))
row("objects within one another in a line, bytes", "check", 250_000)(lambda n: session(doc='{"":' * (n // 4)))
row("lists and objects within one another, 126 deep, bytes", "check", 250_000)(
    lambda n: session(doc='{"type":"doc","content":[{"type":"p"}],"x":[' + ",".join(['[{"":' * 62 + "0" + "}]" * 62] * (n // 435)) + "]}")
)
row("a list in a passed-over field, bytes", "check", 250_000)(
    lambda n: session(doc='{"type":"doc","content":[{"type":"p"}],"x":[' + "0," * (n // 2) + "0]}")
)
row("passed-over fields of an object", "check", 20_000)(
    lambda n: session(doc='{"type":"doc","content":[{"type":"p"}]' + "".join(f',"x{it}":0' for it in range(n)) + "}")
)
row("paragraphs in the document", "check", 18_000)(lambda n: session(doc=paragraphs(n)))
row("letters in a paragraph", "check", 120_000)(lambda n: session(doc=paragraphs(1, "x" * n)))
row("op lines", "check", 25_000)(lambda n: session(ops=[op(op="push")] * n))
row("op lines that push nothing", "replay", 25_000)(lambda n: session(ops=[op(op="push")] * n))
row("letters typed in front of one paragraph", "replay", 5_000)(lambda n: session(ops=typed(n)))
row("letters typed into 2,000 paragraphs in turn", "replay", 5_000)(
    lambda n: session(doc=paragraphs(2000), ops=[it for k in range(n) for it in typed(1, at=(k % 2000) * (k // 2000 + 3) + 1)])
)
row("letters typed between 200 paragraphs", "replay", 500)(lambda n: session(doc=paragraphs(200), ops=typed(n, at=0)))
row("lines of 32 clients that type, pull and push", "replay", 3_200)(
    lambda n: session(
        clients=[f"c{it}" for it in range(32)],
        doc=paragraphs(32),
        ops=[x for k in range(n // 3) for x in (*typed(1, f"c{k % 32}"), op(f"c{k % 32}", op="pull"), op(f"c{k % 32}", op="push"))],
    )
)
row("edits, then as many undos", "replay", 1_000)(lambda n: session(ops=typed(n) + [op(op="undo")] * n))
row("edits, each undone and redone", "replay", 1_000)(
    lambda n: session(ops=[x for it in typed(n) for x in (it, op(op="undo"), op(op="redo"))])
)
row("pending edits carried over as many", "replay", 500)(
    lambda n: session(clients=("a", "b"), ops=typed(n) + typed(n, "b") + [op("b", op="push"), op(op="pull")])
)
row("submissions of as many pending edits", "replay", 500)(lambda n: session(ops=typed(n) + [op(op="submit")] * n))
row("answers with as many entries, kept", "replay", 500)(
    lambda n: session(clients=("a", "b"), ops=typed(n) + [op(op="push")] + [op("b", op="pull", lost=True)] * n)
)
row("types in one choice", "check", 1_000)(lambda n: session(content("(" + "p|" * (n - 1) + "p)+")))
row("types in a row", "check", 240)(lambda n: session(content("l " * n)))
row("types that may be absent, in a row", "check", 240)(lambda n: session(content("p " + "l?" * n)))
row("node types with 990 states each", "check", 10)(
    lambda n: session(content("p", [{"name": f"t{it}", "content": f"((t{it}?){{30}}){{33}}"} for it in range(n)]))
)
row("node types with 4,000 places and 1,000 states each", "check", 1)(
    lambda n: session(content("p", [{"name": f"t{it}", "content": f"(((t{it}|t{it}|t{it}|t{it})?){{37}}){{27}}"} for it in range(n)]))
)
row("node types with 4,032 places each", "check", 4)(
    lambda n: session(content("p", [{"name": f"t{it}", "content": f"((t{it}?){{63}}){{64}}*"} for it in range(n)]))
)
row("types that each lead on to a place of their own", "check", 249)(
    lambda n: session(
        content(
            "p",
            [
                *({"name": f"a{it}"} for it in range(n)),
                {"name": "y"},
                {"name": "z", "content": "(" + "l|" * (2 * n) + "|".join(f"a{it} y?" for it in range(n)) + ")*"},
            ],
        )
    )
)
row("types of a group, each an edge at 990 states", "check", 250)(
    lambda n: session(content("p", [*in_group(n), {"name": "t", "content": "(g((p?){31}){32})*"}]))
)
row("types of one content, with 200,000 edges each", "check", 5)(
    lambda n: session(content("p", [*in_group(200), *({"name": f"t{it}", "content": "(g((p?){31}){32})*"} for it in range(n))]))
)
row("a group's name, as often as it has types", "check", 250)(
    lambda n: session(content("p", [*in_group(n), {"name": "t", "content": "g " * n}]))
)
row("a group of marks behind as many others, as often", "check", 1_000)(
    lambda n: session(marks=[{"name": "a", "group": "h " * n}, {"name": "b", "group": "g"}, {"name": "c", "excludes": "g " * n}])
)
row("suffixes one upon another, after a choice of 4,000", "check", 124)(lambda n: session(content("(" + "p|" * 3999 + "p)" + "+" * n)))
row("repetitions within one another, of a choice of 3,800", "check", 60)(
    lambda n: session(content("(" * n + "(" + "p|" * 3799 + "p)" + "+|p)" * n))
)
row("node types that may hold each other", "check", 500)(
    lambda n: session(content("p", [{"name": f"t{it}", "content": "g*", "group": "g"} for it in range(n)]))
)
row("node types, each needing the next", "check", 500)(
    lambda n: session(content("p", [{"name": f"t{it}", "content": f"t{it + 1}" if it + 1 < n else "p"} for it in range(n)]))
)
row("node types, each needing the one before", "check", 500)(
    lambda n: session(content("p", [{"name": f"t{it}", "content": f"t{it - 1}" if it else "p"} for it in range(n)]))
)
row("node types", "check", 5_000)(lambda n: session(content("p", [{"name": f"t{it}"} for it in range(n)])))
row("mark types", "check", 2_000)(lambda n: session(marks=[{"name": f"m{it}"} for it in range(n)]))
row("node types and as many mark types", "check", 2_000)(
    lambda n: session(content("p", [{"name": f"t{it}"} for it in range(n)]), marks=[{"name": f"m{it}"} for it in range(n)])
)
row("mark types that a type names", "check", 1_000)(
    lambda n: session(
        [BASE[0], {**BASE[1], "marks": " ".join(f"m{it}" for it in range(n))}, *BASE[2:]], marks=[{"name": f"m{it}"} for it in range(n)]
    )
)
row("attributes of a type", "check", 5_000)(
    lambda n: session([BASE[0], {**BASE[1], "attrs": {f"a{it}": {"default": 0} for it in range(n)}}, *BASE[2:]])
)
row("brackets around one name, bytes", "check", 250_000)(lambda n: session(content("(" * (n // 2) + "p" + ")" * (n // 2))))
row("a choice past the places, bytes", "check", 250_000)(lambda n: session(content("p|" * (n // 2) + "p")))
row("texts with marks in turn", "check", 5_000)(
    lambda n: session(
        marks=[{"name": "m"}],
        doc={
            "type": "doc",
            "content": [
                {
                    "type": "p",
                    "content": [{"type": "text", "text": "x", **({"marks": [{"type": "m"}]} if it % 2 else {})} for it in range(n)],
                }
            ],
        },
    )
)
row("steps that mark all paragraphs anew, 20", "replay", 4_000)(
    lambda n: session(
        marks=[{"name": "m"}],
        doc=paragraphs(n, "x"),
        ops=[op(op="step", step={"stepType": "addMark", "from": 0, "to": 3 * n, "mark": {"type": "m"}})] * 20,
    )
)
row("a step's slice of paragraphs", "replay", 10_000)(
    lambda n: session(
        ops=[
            op(op="step", step={"stepType": "replace", "from": 0, "to": 0, "slice": {"content": paragraphs(n)["content"]}}),
            op(op="undo"),
            op(op="redo"),
            op(op="push"),
        ]
    )
)


def nested(depth):
    inner = {"type": "l"}
    for _ in range(depth):
        inner = {"type": "q", "content": [inner]}
    return inner


row("a pasted slice that fits nowhere, levels", "replay", 12)(
    lambda n: session(
        [*BASE, {"name": "l"}],
        paragraphs(2000, "x"),
        [op(op="paste", **{"from": 2, "to": 2, "slice": {"content": [nested(n)], "openStart": n, "openEnd": n}})] * 10,
    )
)
row("types of which a paste needs all around it", "replay", 500)(
    lambda n: session(
        content(f"(p|t{n - 1})+", [{"name": "z"}, *({"name": f"t{it}", "content": f"t{it - 1}" if it else "z"} for it in range(n))]),
        ops=[op(op="paste", **{"from": 0, "to": 0, "slice": {"content": [{"type": "z"}]}})],
    )
)
row("wraps in a document of 2,000 paragraphs", "replay", 250)(
    lambda n: session(
        doc=paragraphs(2000, "x" * 100),
        ops=[x for _ in range(n // 2) for x in (op(op="wrap", **{"from": 0, "to": 102, "type": "q"}), op(op="lift", pos=0))],
    )
)


def run(word, path, stack=None):
    """Plays a file, and returns status, output size, seconds and greatest memory; a status of None took too long."""
    limits = f"ulimit -v {MOST // 1024}; " + (f"ulimit -s {stack}; " if stack else "")
    begun = time.monotonic()
    with open(path, "rb") as file, tempfile.TemporaryFile() as out:
        ran = subprocess.Popen(
            ["bash", "-c", f'{limits}exec "$0" "$1" 2>/dev/null', PROGRAM, word], stdin=file, stdout=out, stderr=subprocess.DEVNULL
        )
        status = None
        while time.monotonic() - begun < LONGEST:
            pid, status, used = os.wait4(ran.pid, os.WNOHANG)
            if pid:
                ran.returncode = os.waitstatus_to_exitcode(status)
                return ran.returncode, out.seek(0, 2), used.ru_utime + used.ru_stime, used.ru_maxrss
            time.sleep(0.0005)
        ran.kill()
        ran.wait()
        return None, 0, time.monotonic() - begun, 0


def middle(word, path):
    """The run that is the middle one by its time. One that takes too long is not taken again."""
    runs = [run(word, path)]
    while runs[0][0] is not None and len(runs) < (7 if runs[0][2] < 1 else 3):
        runs.append(run(word, path))
    return sorted(runs, key=lambda it: it[2])[len(runs) // 2]


def least_stack(word, path, whole):
    for stack in (16, 32, 64, 128, 256, 512, 1024, 2048, 4096, 8192):
        if run(word, path, stack)[:2] == whole[:2]:
            return str(stack)
    return "more"


def measure(name):
    word, n, make = ROWS[name]
    runs, stacks = [], []
    with tempfile.TemporaryDirectory() as folder:
        for factor in (1, 2, 4):
            path = f"{folder}/{factor}"
            with open(path, "w", encoding="utf-8") as file:
                file.write(make(n * factor))
            runs.append(middle(word, path))
            if factor != 2 and runs[-1][2] < 20:
                stacks.append(least_stack(word, path, runs[-1]))
    times = " ".join(f"{it[2] * 1000:9.1f}" if it[0] is not None else "     long" for it in runs)
    grown = runs[2][2] / runs[0][2] if runs[2][0] is not None else float("inf")
    statuses = ",".join(sorted({str(it[0]) for it in runs}))
    print(f"{name:52} {word:7} {n:7} {times} {grown:6.1f} {runs[2][3] / 1024:8.1f}  {'/'.join(stacks):10} {statuses}", flush=True)


def main():
    print(f"{'row':52} {'word':7} {'n':>7} {'n, ms':>9} {'2n, ms':>9} {'4n, ms':>9} {'x':>6} {'4n, MB':>8}  {'stack, KB':10} status")
    for name in ROWS:
        if not sys.argv[1:] or any(it in name for it in sys.argv[1:]):
            measure(name)


if __name__ == "__main__":
    main()
