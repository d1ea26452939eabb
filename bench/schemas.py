#!/usr/bin/env python3
"""Searches for schema lines that take much time or memory, and measures the worst that it found.

    bench/schemas.py search MINUTES [ROW..]
                                        changes schemas at random, from the known kinds or these on, towards more time and more memory,
                                        and prints each that is worse
    bench/schemas.py worst [ROW..]      plays the known worst kinds, each filled to a whole line, and prints what each took
    bench/schemas.py line ROW [BYTES]   writes the session of such a kind, of a whole line unless told

A kind is a list of rows, each a node type or a mark type that is repeated with names of its own until its share of the line is full.
In a search a kind is played as a whole line without its greatest row, then with a small part of that, four times as much, and so on, until
a run takes half a second or 400 MB; what the whole line takes is told by the growth of the last runs. What is printed are kinds as Python
writes them, which KINDS below may take up.
SEED sets the search's seed, PROGRAM names the program, LONGEST and MOST what a run of `worst` may take (120 seconds, 8,000,000,000 bytes).
"""
import json, math, os, random, resource, subprocess, sys, tempfile, time

TOP = os.path.dirname(os.path.dirname(os.path.abspath(__file__)))
PROGRAM = os.environ.get("PROGRAM", f"{TOP}/crates/pm_program/out/pm_program")
LONGEST, MOST = int(os.environ.get("LONGEST", 120)), int(os.environ.get("MOST", 8_000_000_000))
LINE = 1_048_576
LETTERS = "abcdefghijklmnopqrstuvwxyzABCDEFGHIJKLMNOPQRSTUVWXYZ0123456789"
# In texts of rows: the row's own name, the name of the type before it, the name after it, the number of the type in its row.
OWN, BEFORE, AFTER, NUMBER = "@", "<", ">", "#"


# ---- a schema of a kind


def name_of(number, sort="node"):
    """A short name of a node type or a mark type; no two types have one."""
    name = ""
    while True:
        name = LETTERS[number % len(LETTERS)] + name
        number //= len(LETTERS)
        if not number:
            return ("Z" if sort == "node" else "Y") + name


def filled(text, number, size, sort):
    """A row's text for the type of this number and sort. What stands in `[PART]` is repeated until it has `size` bytes."""
    made = text.replace(OWN, name_of(number, sort)).replace(BEFORE, name_of(max(0, number - 1), sort))
    made = made.replace(AFTER, name_of(number + 1, sort)).replace(NUMBER, str(number % 64))
    if "[" not in made:
        return made
    head, _, rest = made.partition("[")
    part, _, tail = rest.partition("]")
    room = max(1, size // max(1, len(part)))
    # A part with a number of its own is written for each number.
    parts = "".join(part.replace("%", name_of(it, sort)) for it in range(room)) if "%" in part else part * room
    return head + parts + tail


def types_of(row, first, size):
    """The types of a row, numbered from `first` on, until they have so many bytes: none for no bytes, and else at least one."""
    if size == 0:
        return []
    made, used, number = [], 0, first
    # A text with a part that is repeated is one type's, and has the whole share.
    long = any("[" in str(it) for it in row.values())
    while not made or (used < size and not long):
        one = {"name": name_of(number, row["of"])}
        for key in [it for it in row if it not in ("of", "share")]:
            one[key] = filled(row[key], number, size, row["of"]) if isinstance(row[key], str) else row[key]
        text = json.dumps(one, separators=(",", ":"))
        made.append(text)
        used += len(text) + 1
        number += 1
    if used > size and len(made) > 1:
        made.pop()
    return made


HEAD = ['{"name":"doc","content":"p+"}', '{"name":"p","content":"text*"}', '{"name":"text"}']
EMPTY = len('{"nodes":[],"marks":[]}') + sum(map(len, HEAD)) + 3


def line_of(kind, size=LINE, part=1.0):
    """The schema line of a kind with at most so many bytes, or more where one type of each row has more. Of the row with the greatest
    share, the first of several, only a part is there."""
    shares = sum(it["share"] for it in kind)
    greatest = max(range(len(kind)), key=lambda at: kind[at]["share"])
    parts = {"node": [*HEAD], "mark": []}
    first = {"node": 0, "mark": 0}
    for at, row in enumerate(kind):
        room = (size - EMPTY) * row["share"] // shares
        made = types_of(row, first[row["of"]], math.ceil(room * part) if at == greatest else room)
        first[row["of"]] += len(made)
        parts[row["of"]] += made
    return '{"nodes":[' + ",".join(parts["node"]) + '],"marks":[' + ",".join(parts["mark"]) + "]}"


def session(kind, size=LINE, part=1.0):
    return f'{line_of(kind, size, part)}\nnull\n["a"]\n'


# ---- runs


def run(text, longest, most):
    """Plays a session by `check`; its status, the processor's seconds and the greatest memory in bytes. None: it took too long."""

    def limit():
        resource.setrlimit(resource.RLIMIT_AS, (most, most))
        resource.setrlimit(resource.RLIMIT_CPU, (longest, longest + 1))

    with tempfile.TemporaryFile() as file:
        file.write(text.encode())
        file.seek(0)
        how = {"stdin": file, "stdout": subprocess.PIPE, "stderr": subprocess.DEVNULL, "preexec_fn": limit}
        ran = subprocess.Popen([PROGRAM, "check"], **how)
        out = ran.stdout.read()
        ran.stdout.close()
        _, status, used = os.wait4(ran.pid, 0)
        ran.returncode = os.waitstatus_to_exitcode(status)
    seconds = used.ru_utime + used.ru_stime
    status = None if ran.returncode < 0 and seconds >= longest - 1 else ran.returncode
    return status, out.decode().strip(), seconds, used.ru_maxrss * 1024


def measured(kind):
    """The seconds and the bytes that a whole line of the kind takes, by how they grow with its greatest row; and what was seen."""
    whole, runs = len(line_of(kind)), []
    part = 0
    while True:
        line = session(kind, LINE, part)
        status, out, seconds, memory = run(line, 20, 3_000_000_000)
        runs.append((len(line), seconds, memory))
        is_far = seconds > 0.5 or memory > 400_000_000
        if part == 1 or status not in (0, 1) or (is_far and len(runs) > 1 and (len(runs) > 2 or seconds > 2)):
            break
        part = min(1, 4 * part or 2.0**-14)
    told = f"{out or status} of {runs[-1][0]} bytes: {runs[-1][1]:.2f} s, {runs[-1][2] // 1_000_000} MB"
    return grown(runs, whole, 1), grown(runs, whole, 2), told


def grown(runs, whole, at):
    """What a whole line takes: by the slope between the last two runs, which grows on as it grew before them, at most in proportion."""
    slopes = [max(0, two[at] - one[at]) / (two[0] - one[0]) for one, two in zip(runs, runs[1:]) if two[0] > one[0]]
    (last, *_), left = runs[-1], whole - runs[-1][0]
    if not slopes or left <= 0:
        return runs[-1][at]
    steeper = max(1, min(4, slopes[-1] / slopes[-2])) if len(slopes) > 2 and slopes[-2] > 0 else 1
    empty = runs[0][0]
    return runs[-1][at] + slopes[-1] * left * ((whole - empty) / (last - empty)) ** math.log(steeper, 4)


# ---- the kinds that are known, and the search


def node(content="", share=1, **more):
    return {"of": "node", "share": share, **({"content": content} if content else {}), **more}


def mark(share=1, **more):
    return {"of": "mark", "share": share, **more}


KINDS = {
    "types of 4,000 places and 1,000 states": [node("(((@|@|@|@)?){37}){27}")],
    "types with 3,000 edges at 1,000 states": [node(group="g", share=7), node("(g((@?){31}){32})*", share=93)],
    "equal types with 3,000 edges at 1,000 states": [node(group="g", share=7), node("(g((p?){31}){32})*", share=93)],
    "types with 390 edges at 512 states": [node(group="g"), node("g* p g{8}", share=99)],
    "equal types of a group that all hold it": [node("g+", group="g", share=15), node("g+", share=85)],
    "a group's name, again and again": [node(group="g"), node("[g ]")],
    "a type's name, again and again": [node(), node("[< ]")],
    "a mark's name, again and again": [mark(), mark(excludes="[< ]")],
    "a group behind groups of a mark": [mark(group="[h ]", share=4000), mark(group="g"), mark(excludes="[g ]", share=4001)],
    "a group behind groups of a type": [node(group="[h ]", share=4000), node(group="g"), node("[g ]", share=4001)],
    "node types and mark types": [node(), mark()],
    "mark types": [mark()],
    "types, each needing the one after": [node(">")],
    "types, each needing the one before": [node("<?")],
    "contents that all differ": [node("@*")],
    "attributes": [node(attrs={"a": {"default": 0}})],
}
SIGNS = ["@", "@", "<", ">", "p", "g", "h", "Za", "text"]


def tree(draws, deep=0):
    """A random content expression."""
    kind = draws.randrange(8) if deep < 4 else 0
    if kind < 2:
        return draws.choice(SIGNS)
    if kind == 2:
        return f"({'|'.join(tree(draws, deep + 1) for _ in range(draws.randint(2, 4)))})"
    if kind == 3:
        return f"({' '.join(tree(draws, deep + 1) for _ in range(draws.randint(2, 4)))})"
    return suffixed(draws, tree(draws, deep + 1))


def suffixed(draws, inner):
    number = draws.choice((2, 3, 4, 7, 8, 9, 16, 27, 31, 32, 37, 63, 64))
    suffix = draws.choice(("*", "+", "?", f"{{{number}}}", f"{{{number}}}", f"{{0,{number}}}", f"{{{number},}}"))
    return f"({inner}){suffix}"


def changed_text(draws, text):
    """Another content expression, made of this one."""
    kind = draws.randrange(7)
    if kind == 0 or not text:
        return tree(draws)
    if kind == 1:
        return suffixed(draws, text)
    if kind == 2:
        return f"({text}{draws.choice('| ')}{tree(draws, 2)})"
    if kind == 3 and "[" not in text:
        return f"[{text} ]"
    numbers = [at for at, it in enumerate(text) if it.isdigit() and (at == 0 or not text[at - 1].isdigit())]
    if kind < 6 and numbers and "{" in text:
        at = draws.choice(numbers)
        end = at
        while end < len(text) and text[end].isdigit():
            end += 1
        return f"{text[:at]}{max(0, min(64, int(text[at:end]) + draws.choice((-8, -1, 1, 8, 32))))}{text[end:]}"
    signs = [at for at, it in enumerate(text) if it in "@<>pgh"]
    at = draws.choice(signs) if signs else 0
    return text[:at] + draws.choice(SIGNS) + text[at + 1 :]


def changed_row(draws, row):
    row = dict(row)
    kind = draws.randrange(6)
    if kind == 0:
        row["share"] = max(1, int(row["share"] * draws.choice((0.2, 0.5, 2, 5))))
    elif kind == 1:
        row["group"] = draws.choice(("g", "h", "g h", "[g ]", "[% ]"))
    elif row["of"] == "mark":
        row["excludes"] = draws.choice(("_", "", "@", "[@ ]", "[g ]", "[h ]", "[Ya ]", "[< ]"))
    elif kind == 2:
        row["marks"] = draws.choice(("_", "", "Ya", "[Ya ]", "[g ]", "[h ]"))
    elif kind == 3 and "content" in row:
        del row["content"]
    else:
        row["content"] = changed_text(draws, row.get("content", ""))
    return row


def changed(draws, kind, others):
    kind = [dict(it) for it in kind]
    what = draws.randrange(8)
    if what == 0 and len(kind) < 6:
        kind.append(draws.choice(draws.choice(others)))
    elif what == 1 and len(kind) > 1:
        kind.pop(draws.randrange(len(kind)))
    elif what == 2 and len(kind) < 6:
        kind.append(draws.choice((node(tree(draws)), mark(excludes="_"), node(group="g"))))
    else:
        at = draws.randrange(len(kind))
        kind[at] = changed_row(draws, kind[at])
    return kind


def search(minutes, rows):
    seed = int(os.environ.get("SEED", random.randrange(2**32)))
    draws, until = random.Random(seed), time.monotonic() + minutes * 60
    print(f"seed {seed}", flush=True)
    # What was measured: seconds, bytes and the kind. Of each of the two the worst twelve are changed on.
    pool, count = [], 0
    for kind in [it for name, it in KINDS.items() if not rows or any(row in name for row in rows)]:
        seconds, memory, told = measured(kind)
        pool.append((seconds, memory, kind))
        print(f"{seconds:10.1f} s {memory / 1e6:12.0f} MB  {told}  {kind}", flush=True)
    while time.monotonic() < until:
        by = draws.randrange(2)
        best = sorted(pool, key=lambda it: -it[by])[:12]
        pool = [it for it in pool if it in best or it in sorted(pool, key=lambda it: -it[1 - by])[:12]]
        kind = changed(draws, draws.choice(best)[2], [it[2] for it in pool] + [*KINDS.values()])
        try:
            seconds, memory, told = measured(kind)
        except (OSError, ValueError) as fault:
            print(f"left out, for {fault}: {kind}", flush=True)
            continue
        count += 1
        worse = [what for what, it, at in (("time", seconds, 0), ("memory", memory, 1)) if it > max(one[at] for one in pool)]
        if worse:
            print(f"{seconds:10.1f} s {memory / 1e6:12.0f} MB  more {' and '.join(worse)}: {told}  {kind}", flush=True)
        pool.append((seconds, memory, kind))
    print(f"{count} schemas; the worst by time, then by memory:")
    for by in (0, 1):
        for seconds, memory, kind in sorted(pool, key=lambda it: -it[by])[:5]:
            print(f"{seconds:10.1f} s {memory / 1e6:12.0f} MB  {kind}")


def worst(rows):
    print(f"{'kind':50} {'bytes':>8} {'s':>8} {'MB':>8}  answer")
    for name, kind in KINDS.items():
        if rows and not any(it in name for it in rows):
            continue
        text = session(kind)
        status, out, seconds, memory = run(text, LONGEST, MOST)
        told = out or {None: f"over {LONGEST} s", 5: f"no memory of {MOST / 1e9:.0f} GB"}.get(status, f"status {status}")
        print(f"{name:50} {len(text.split(chr(10))[0]):8} {seconds:8.1f} {memory / 1e6:8.0f}  {told}", flush=True)


def main(words):
    if words[:1] == ["search"] and len(words) > 1:
        search(float(words[1]), words[2:])
    elif words[:1] == ["worst"]:
        worst(words[1:])
    elif words[:1] == ["line"] and len(words) in (2, 3):
        kind = next(it for name, it in KINDS.items() if words[1] in name)
        sys.stdout.write(session(kind, int(words[2]) if len(words) == 3 else LINE))
    else:
        print(__doc__, file=sys.stderr)
        sys.exit(2)


if __name__ == "__main__":
    main(sys.argv[1:])
