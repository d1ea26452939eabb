"""Talks of the live authority: lines of each kind, made from a number, and the program that answers them.

The document is of a schema like ProseMirror's basic one with lists. A line is drawn while a program answers the lines before it,
so that versions are the log's length and most steps apply; the same number makes the same lines wherever the answers are the same.
"""
import json, os, random, re, subprocess, sys

TOP = os.path.dirname(os.path.dirname(os.path.dirname(os.path.abspath(__file__))))
LIVE = os.environ.get("PM_LIVE", f"{TOP}/crates/pm_live/out/pm_live")
MEMORY = b'{"fault":"memory"}'
BLOCK = {"group": "block"}
SCHEMA = {
    "version": 2,
    "nodes": [
        {"name": "doc", "content": "block+", "attrs": {"lang": {"default": "en", "validate": "string|null"}}},
        {"name": "paragraph", "content": "inline*", **BLOCK},
        {"name": "blockquote", "content": "block+", **BLOCK},
        {"name": "heading", "content": "inline*", "attrs": {"level": {"default": 1, "validate": "number"}}, **BLOCK},
        {"name": "code_block", "content": "text*", "marks": "", **BLOCK},
        {"name": "bullet_list", "content": "list_item+", **BLOCK},
        {"name": "list_item", "content": "paragraph block*"},
        {"name": "image", "group": "inline", "inline": True, "attrs": {"src": {}, "title": {"default": None}}},
        {"name": "text", "group": "inline"},
    ],
    "marks": [
        {"name": "link", "attrs": {"href": {}}, "inclusive": False},
        {"name": "em"},
        {"name": "strong"},
        {"name": "code", "excludes": "_"},
    ],
}


def text(letters, *marks):
    return {"type": "text", "text": letters, **({"marks": list(marks)} if marks else {})}


def block(kind, *content, **attrs):
    return {"type": kind, **({"attrs": attrs} if attrs else {}), **({"content": list(content)} if content else {})}


IMAGE = {"type": "image", "attrs": {"src": "map.png"}}
MARKS = [{"type": "em"}, {"type": "strong"}, {"type": "code"}, {"type": "link", "attrs": {"href": "https://example.org/"}}]
DOC = block(
    "doc",
    block("heading", text("Plan"), level=2),
    block("paragraph", text("Buy "), text("milk", MARKS[0], MARKS[1]), IMAGE, text(" there")),
    block("bullet_list", block("list_item", block("paragraph", text("Ann \U0001f600"))), block("list_item", block("paragraph"))),
    block("blockquote", block("code_block", text("if x"))),
)
# Steps and lines whose answer is a fault, whatever the document is.
FAULTY_STEPS = [
    '{"stepType":"move"}',
    '{"stepType":"addMark","from":0,"to":1,"mark":{"type":"none"}}',
    '{"stepType":"attr","pos":0,"attr":"level","value":1.5}',
    '{"stepType":"replace","from":0,"to":0,"slice":{"content":[{"type":"text","text":""}]}}',
    '{"stepType":"replace","from":0,"to":0,"slice":{"content":[],"openStart":1}}',
    '{"stepType":"replace","from":0,"to":0,"slice":{"content":[{"type":"image"}]}}',
]
FAULTY = [
    "",
    "{",
    "[]",
    "1e400",
    '{"op":"nothing"}',
    '{"op":"since","version":-1}',
    '{"op":"since"}',
    '{"op":"submit","version":0,"clientID":1.5,"steps":[]}',
    '{"op":"submit","version":0,"clientID":"\\ud800","steps":[]}',
    *('{"op":"submit","version":0,"clientID":1,"steps":[%s]}' % it for it in FAULTY_STEPS),
]
IDS = ["ann", "", "é \U0001f600", 7, "7", -1, 2**64 - 1, -(2**63)]


def dumped(value):
    return value if isinstance(value, str) else json.dumps(value, separators=(",", ":"))


def opening():
    return [dumped(SCHEMA), dumped(DOC)]


def size_of(node):
    """The tokens of a node."""
    if node["type"] == "text":
        return len(node["text"].encode("utf-16-le")) // 2
    return 1 if node["type"] == "image" else 2 + sum(map(size_of, node.get("content", [])))


def places(node, at=0):
    """Each node with the position before it, the children of the top node at first."""
    for it in node.get("content", []):
        yield at, it
        yield from places(it, at + 1)
        at += size_of(it)


def step(draws, doc):
    """A step on a document. Most apply."""
    found = list(places(doc))
    inside = [it for it in found if it[1]["type"] in ("paragraph", "heading")]
    at, node = draws.choice(inside or found)
    start, end = at + 1, at + size_of(node) - 1
    size = size_of(doc) - 2
    one, other = sorted((draws.randint(start, max(start, end)), draws.randint(start, max(start, end))))
    mark = draws.choice(MARKS)
    kind = draws.randrange(16)
    if kind < 3:
        letters = text(draws.choice(("x", "and ", "é", "\U0001f600", "twice as long a text ")), *[MARKS[0]] * draws.randrange(2))
        return {"stepType": "replace", "from": one, "to": one, "slice": {"content": [letters]}}
    if kind == 3:
        return {"stepType": "replace", "from": one, "to": min(other, one + 4)}
    if kind == 4:
        halves = {"content": [block("paragraph"), block("paragraph")], "openStart": 1, "openEnd": 1}
        return {"stepType": "replace", "from": one, "to": one, "slice": halves, "structure": draws.randrange(2) == 0}
    if kind == 5:
        return {"stepType": "replace", "from": one, "to": one, "slice": {"content": [IMAGE, text("!", mark)]}}
    if kind == 6:
        around = {"content": [block("blockquote")]}
        ends = {"from": at, "to": at + size_of(node), "gapFrom": at, "gapTo": at + size_of(node)}
        return {"stepType": "replaceAround", **ends, "insert": 1, "slice": around, "structure": True}
    if kind == 7:
        ends = {"from": at, "to": at + size_of(node), "gapFrom": start, "gapTo": end}
        return {"stepType": "replaceAround", **ends, "insert": 1, "slice": {"content": [block("heading", level=3)]}}
    if kind < 10:
        return {"stepType": draws.choice(("addMark", "removeMark")), "from": one, "to": draws.choice((other, size)), "mark": mark}
    if kind == 10:
        leaves = [at for at, it in found if it["type"] == "image"] or [at]
        return {"stepType": draws.choice(("addNodeMark", "removeNodeMark")), "pos": draws.choice(leaves), "mark": mark}
    if kind < 13:
        heads = [at for at, it in found if it["type"] == "heading"] or [at]
        value = draws.choice((2, 3, 3, "x"))
        return {"stepType": "attr", "pos": draws.choice(heads), "attr": draws.choice(("level", "level", "none")), "value": value}
    if kind == 13:
        return {"stepType": "docAttr", "attr": "lang", "value": draws.choice(("de", "fr", None, 1))}
    # A range that mostly parts nodes.
    one, other = sorted((draws.randint(0, size + 1), draws.randint(0, size + 1)))
    return {"stepType": "replace", "from": one, "to": other, "slice": {"content": [text("y")]} if draws.randrange(2) else None}


class Program:
    """The program, which is told one line after another."""

    def __init__(self, program=None):
        words = (program or LIVE).split()
        self.ran = subprocess.Popen(words, stdin=subprocess.PIPE, stdout=subprocess.PIPE, stderr=subprocess.DEVNULL)

    def write(self, line):
        self.ran.stdin.write(dumped(line).encode("utf-8", "surrogatepass") + b"\n")
        self.ran.stdin.flush()

    def ask(self, line):
        """Writes a line, and returns its answer; None where there is none, since the program has ended."""
        try:
            self.write(line)
            told = self.ran.stdout.readline()
        except BrokenPipeError:
            return None
        return told[:-1].decode() if told.endswith(b"\n") else None

    def close(self):
        """Ends the input, and returns the status."""
        self.ran.stdin.close()
        self.ran.stdout.close()
        return self.ran.wait(timeout=30)


def opened(program=None):
    """A program that has an opening."""
    ran = Program(program)
    first, second = opening()
    ran.write(first)
    ran.ask(second)
    return ran


def line(draws, doc, version):
    """One line of a talk."""
    kind = draws.randrange(20)
    if kind == 0:
        return draws.choice(FAULTY)
    if kind < 3:
        return dumped({"op": "since", "version": max(0, draws.choice((version, version - 1, version - draws.randrange(9), version + 1)))})
    if kind == 3:
        return dumped({"op": "since", "version": draws.choice((0, 2**32 - 1))}) if draws.randrange(4) == 0 else '{"op":"doc"}'
    which = version if kind < 18 else draws.randrange(version + 2)
    steps = [step(draws, doc) for _ in range(draws.choice((0, 1, 1, 1, 1, 1, 1, 2, 3)))]
    return dumped({"op": "submit", "version": which, "clientID": draws.choice(IDS), "steps": steps})


def talk(number, count, program=None):
    """So many lines after the opening; each of FAULTY is among them where there are enough."""
    draws, ran, lines = random.Random(f"talk {number}"), opened(program), []
    doc, version = DOC, 0
    while len(lines) < count:
        lines.append(line(draws, doc, version) if len(lines) % 10 or len(lines) // 10 >= len(FAULTY) else FAULTY[len(lines) // 10])
        if '"accepted"' in (ran.ask(lines[-1]) or ""):
            told = json.loads(ran.ask('{"op":"doc"}'))
            doc, version = told["doc"], told["version"]
    ran.close()
    return lines


ANSWER = re.compile(
    rb'\{"accepted":\{"count":\d+,"from":\d+\}\}|\{"version":\d+\}'
    rb'|\{"refused":\{(?:"at":\d+,"index":\d+,"reason":9|"index":\d+,"reason":(?:[1-8]|1[0-3]))\}\}'
    rb'|\{"clientIDs":\[.*\],"steps":\[.*\],"version":\d+\}|\{"doc":\{.*\},"version":\d+\}|\{"fault":(?:[35-7]|1[2-59])\}'
)
CLOSING = re.compile(rb'\{"fault":\d+,"line":[12]\}\n')


def is_compact(answer):
    """Whether an answer is compact JSON with its keys in byte order."""
    text = answer.decode()
    return json.dumps(json.loads(text), sort_keys=True, separators=(",", ":"), ensure_ascii=False) == text


def fault_of_talk(given, played):
    """What is wrong with the status and the form of what was written; None where nothing is."""
    if played.status not in (0, 1) or played.err:
        return f"status {played.status}, {played.err[-200:]!r}"
    if played.status == 1:
        return None if CLOSING.fullmatch(played.out) else f"status 1 after {played.out[-200:]!r}"
    opened, *answers = played.out.split(b"\n")
    lines = given.count(b"\n") + (not given.endswith(b"\n"))
    if not re.fullmatch(rb'\{"size":\d+,"version":0\}', opened) or not answers or answers.pop() != b"" or len(answers) != lines - 2:
        return f"{len(answers)} answers to {lines} lines, {opened[:80]!r} at first"
    wrong = next((it for it in answers if not ANSWER.fullmatch(it) or not is_compact(it)), None)
    return wrong and f"the answer {wrong[:200]!r} is of no form"


def need_live():
    if not os.access(LIVE.split()[0], os.X_OK):
        print(f"there is no program at {LIVE}; ./pm build live makes it", file=sys.stderr)
        sys.exit(2)
