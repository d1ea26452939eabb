"""The inputs and the words at each limit of docs/use/FORMATS.md: one below, at it, and one above, with the first line that each gives.

No line is long enough for a list of 4,294,967,296 tokens, so that limit has no row.
"""
import json

LONGEST_LINE, LONGEST_INPUT = 1_048_576, 67_108_864
PARAGRAPHS = [{"name": "doc", "content": "p+"}, {"name": "p", "content": "text*"}, {"name": "text"}]
QUOTES = [
    {"name": "doc", "content": "block+"},
    {"name": "p", "content": "text*", "group": "block"},
    {"name": "q", "content": "block+", "group": "block"},
    {"name": "text"},
]


def dumped(value):
    return value if isinstance(value, str) else json.dumps(value, separators=(",", ":"), ensure_ascii=False)


def session(schema=None, doc=None, clients=None, ops=()):
    """A session of these four parts; a part may be the text of its line."""
    head = [schema or {"nodes": PARAGRAPHS}, doc, clients if clients is not None else ["a"]]
    return "".join(dumped(it) + "\n" for it in [*head, *ops]).encode()


def nodes(content, more=()):
    """A schema whose top type has this content; `p` is a paragraph and `l` a leaf, both blocks."""
    return {"nodes": [{"name": "doc", "content": content}, *PARAGRAPHS[1:], {"name": "l"}, *more]}


def padded(line, size):
    return line + " " * (size - len(line))


def letters(count):
    return {"type": "doc", "content": [{"type": "p", "content": [{"type": "text", "text": "x" * count}]}]}


def nested(count, inside):
    for _ in range(count):
        inside = {"type": "q", "content": [inside]}
    return inside


def lists(depth):
    return "[" * depth + "]" * depth


PUSH = '{"c":"a","op":"push"}'


def of_size(size):
    """A session of so many bytes: lines of the greatest length, and a last one that fills the rest."""
    text = session()
    while size - len(text) > LONGEST_LINE + 1:
        # What is left over for the last line has to hold an op.
        line = min(LONGEST_LINE, size - len(text) - 200)
        text += padded(PUSH, line).encode() + b"\n"
    return text + padded(PUSH, size - len(text) - 1).encode() + b"\n"


def of_ops(count):
    return session(ops=[PUSH] * count)


def op(**fields):
    return {"c": "a", **fields}


def row(name, make, any=None, **words):
    """A row of the table: its name, what makes the input, and status and first line, for any word or each by itself."""
    return name, make, {"any": any} if any else words


def ok(lines, size, first=None):
    """What the words write of a session."""
    return {"check": (0, f"ok {lines} {size}"), **({"replay": (0, first)} if first else {})}


def refused(line, code):
    return 1, f"refused {line} {code}"


def inputs():
    """Bytes, lines and how deep a line nests."""
    ops = (LONGEST_INPUT - len(session())) // (LONGEST_LINE + 1) + 1
    yield row("an input one byte below the limit", lambda: of_size(LONGEST_INPUT - 1), check=(0, f"ok {ops} 2"))
    yield row("an input at the limit", lambda: of_size(LONGEST_INPUT), check=(0, f"ok {ops} 2"))
    yield row("an input past the limit", lambda: of_size(LONGEST_INPUT + 1), any=refused(0, 1))
    yield row("blanks past the limit", lambda: b" " * (LONGEST_INPUT + 1), any=refused(0, 1))
    for by, code in ((-1, None), (0, None), (1, 3)):
        size = LONGEST_LINE + by
        schema, clients = dumped({"nodes": PARAGRAPHS}), '["a"]'
        well = ok(1, 2, "4 accepted 0 0; stale")
        for name, made, line in (
            ("1", lambda size=size: session(padded(schema, size), None, clients, [PUSH]), 1),
            ("2", lambda size=size: session(None, padded("null", size), clients, [PUSH]), 2),
            ("3", lambda size=size: session(None, None, padded(clients, size), [PUSH]), 3),
            ("4", lambda size=size: session(None, None, clients, [padded(PUSH, size)]), 4),
        ):
            told = {"any": refused(line, code)} if code else well
            yield row(f"a line {name} of {size} bytes", made, **told)
    for count in (99_999, 100_000):
        yield row(f"{count} op lines", lambda count=count: of_ops(count), **ok(count, 2, "4 accepted 0 0; stale"))
    yield row("100,001 op lines", lambda: of_ops(100_001), any=refused(100_004, 4))
    for depth in (126, 127):
        text = f'{{"c":"a","op":"push","x":{lists(depth - 1)}}}'
        yield row(f"an op line of {depth} levels", lambda text=text: session(ops=[text]), **ok(1, 2, "4 accepted 0 0; stale"))
    yield row("an op line of 128 levels", lambda: session(ops=[f'{{"c":"a","op":"push","x":{lists(127)}}}']), any=refused(4, 5))
    for line, made in ((1, lambda it: session(schema=it)), (2, lambda it: session(doc=it)), (3, lambda it: session(clients=it))):
        for depth in (100, 126, 127, 128, 200, 10_000, 300_000):
            # An empty list of clients, or one whose entry is a list.
            code = 5 if depth > 127 else 6
            yield row(f"a line {line} of {depth} levels", lambda made=made, depth=depth: made(lists(depth)), any=refused(line, code))


def schemas():
    """Content expressions and names."""
    for count in (4_095, 4_096):
        yield row(f"{count} places", lambda count=count: session(nodes(f"({'p|' * (count - 1)}p)+")), **ok(0, 2))
    yield row("4,097 places", lambda: session(nodes(f"({'p|' * 4096}p)+")), any=refused(1, 9))
    yield row("4,096 places by numbers", lambda: session(nodes("((p|l){64}){32}")), any=refused(1, 9))
    for count in (998, 999):
        yield row(f"{count + 1} states", lambda count=count: session(nodes("l " * count)), **ok(0, count))
    yield row("1,001 states", lambda: session(nodes("l " * 1000)), any=refused(1, 9))
    for count in (499, 500):
        yield row(f"{count} suffixes", lambda count=count: session(nodes("p" + "+" * count)), **ok(0, 2))
        deep = "(l|" * (count - 1) + "(p|l)" + ")" * (count - 1)
        yield row(f"{count} brackets", lambda deep=deep: session(nodes(deep)), **ok(0, 1))
    yield row("501 suffixes", lambda: session(nodes("p" + "+" * 501)), any=refused(1, 8))
    yield row("501 brackets", lambda: session(nodes("(l|" * 500 + "(p|l)" + ")" * 500)), any=refused(1, 8))
    yield row("501 brackets around one", lambda: session(nodes("(" * 501 + "l" + ")" * 501)), **ok(0, 1))
    for number in (63, 64):
        yield row(f"the number {number} in braces", lambda number=number: session(nodes(f"l{{{number}}}")), **ok(0, number))
    yield row("the number 65 in braces", lambda: session(nodes("l{65}")), any=refused(1, 8))
    for bounds in ("{2,1}", "{64,63}", "{99999999999999999999}", "{1,99999999999999999999}"):
        yield row(f"the braces {bounds}", lambda bounds=bounds: session(nodes("l" + bounds)), any=refused(1, 8))
    for size in (1, 63, 64):
        named = [{"name": "n" * size, "group": "g" * size}]
        yield row(f"names of {size} characters", lambda named=named: session(nodes("p", named)), **ok(0, 2))
    for name in ("n" * 65, "", "_", "n-", "é"):
        yield row(f"a type named {name[:5]!r}", lambda name=name: session(nodes("p", [{"name": name}])), any=refused(1, 7))
    yield row("a group of 65 characters", lambda: session(nodes("p", [{"name": "n", "group": "g" * 65}])), any=refused(1, 7))
    for depth, told in ((3, ok(0, 2)), (4, ok(0, 2)), (5, {"any": refused(1, 12)})):
        kind = f'{{"name":"p","attrs":{{"k":{{"default":{lists(depth)}}}}},"content":"text*"}}'
        attrs = f'{{"nodes":[{{"name":"doc","content":"p+"}},{kind},{{"name":"text"}}]}}'
        yield row(f"a default of {depth} levels", lambda attrs=attrs: session(attrs), **told)


def documents():
    """Tokens, depth, and values of attributes."""
    step = op(op="step", step={"stepType": "replace", "from": 1, "to": 1, "slice": {"content": [{"type": "text", "text": "y"}]}})
    for count, first in ((499_997, "4 made 1"), (499_998, "4 refused 0 7")):
        made = lambda count=count: session(None, letters(count), None, [step])
        yield row(f"{count} letters and one", made, **ok(1, count + 2, first))
    yield row("499,999 letters", lambda: session(None, letters(499_999)), any=refused(2, 16))
    grown = {"version": 2, "nodes": PARAGRAPHS}
    for count, first in ((999_997, "4 made 1"), (999_998, "4 refused 0 7")):
        made = lambda count=count: session(grown, letters(count), None, [step])
        yield row(f"{count} letters and one in version 2", made, **ok(1, count + 2, first))
    yield row("999,999 letters in version 2", lambda: session(grown, letters(999_999)), any=refused(2, 16))
    text = {"type": "p"}
    for depth, first in ((46, "4 made 1"), (47, "4 refused 0 8")):
        wrapped = op(op="wrap", **{"from": 0, "to": 2 * depth + 2, "type": "q"})
        made = lambda depth=depth, it=wrapped: session({"nodes": QUOTES}, {"type": "doc", "content": [nested(depth, text)]}, None, [it])
        yield row(f"{depth} quotes and one", made, **ok(1, 2 * depth + 2, first))
    yield row("48 quotes", lambda: session({"nodes": QUOTES}, {"type": "doc", "content": [nested(48, text)]}), any=refused(2, 16))
    for count, first in ((48, "4 made 1"), (49, "4 no fit"), (1000, "4 no fit")):
        around = [{"name": "z"}, *({"name": f"t{it}", "content": f"t{it - 1}" if it else "z"} for it in range(count))]
        paste = op(op="paste", **{"from": 0, "to": 0, "slice": {"content": [{"type": "z"}]}})
        made = lambda count=count, around=around, it=paste: session(nodes(f"(p|t{count - 1})+", around), None, None, [it])
        yield row(f"a wrapping of {count} types", made, **ok(1, 2, first))
    schema = {
        "nodes": [{"name": "doc", "content": "p+"}, {"name": "p", "content": "text*", "attrs": {"k": {"default": None}}}, {"name": "text"}]
    }
    for value, code in (
        (lists(3), None),
        (lists(4), None),
        (lists(5), 12),
        ("9223372036854775806", None),
        ("9223372036854775807", None),
        ("9223372036854775808", 12),
        ("18446744073709551615", 12),
        ("18446744073709551616", 12),
        ("-9223372036854775807", None),
        ("-9223372036854775808", None),
        ("-9223372036854775809", 12),
        ("1.0", 12),
        ("1e0", 12),
    ):
        doc = f'{{"type":"doc","content":[{{"type":"p","attrs":{{"k":{value}}}}}]}}'
        told = {"any": refused(2, code)} if code else ok(0, 2)
        yield row(f"the attribute {value[:24]} in the document", lambda doc=doc: session(schema, doc), **told)
        line = f'{{"c":"a","op":"settype","pos":0,"type":"p","attrs":{{"k":{value}}}}}'
        told = {"any": refused(4, code)} if code else ok(1, 2, "4 made 1")
        yield row(f"the attribute {value[:24]} in an op", lambda line=line: session(schema, None, None, [line]), **told)
        line = f'{{"c":"a","op":"attr","pos":0,"attr":"k","value":{value}}}'
        yield row(f"the attribute {value[:24]} alone", lambda line=line: session(schema, None, None, [line]), **told)


def large_steps():
    """Steps with whose result a document is full or too large, and where another reason comes first."""
    blocks = [*QUOTES[:3], {"name": "l", "content": "i+", "group": "block"}, {"name": "i", "content": "p block*"}, QUOTES[3]]
    full, text, empty = letters(499_998), {"content": letters(499_998)["content"][0]["content"]}, {"type": "p"}
    apart = {
        "type": "doc",
        "content": [nested(1, letters(1)["content"][0]), {"type": "l", "content": [{"type": "i", "content": letters(1)["content"]}]}],
    }
    around = {
        "stepType": "replaceAround",
        "from": 0,
        "to": 500_000,
        "gapFrom": 0,
        "gapTo": 500_000,
        "insert": 1,
        "slice": {"content": [{"type": "q"}]},
    }
    replace = {"stepType": "replace"}
    split = {**replace, "from": 1, "to": 1, "slice": {"content": [empty, empty], "openStart": 1, "openEnd": 1}, "structure": True}
    for name, doc, step, first in (
        ("a split of 499,998 letters", full, split, "4 refused 0 7"),
        ("a quote around 499,998 letters", full, around, "4 refused 0 7"),
        ("a quote around them, as structure", full, {**around, "structure": True}, "4 refused 0 7"),
        ("499,998 letters in place of two", letters(2), {**replace, "from": 1, "to": 3, "slice": text}, "4 made 1"),
        ("499,998 letters between two", letters(2), {**replace, "from": 2, "to": 2, "slice": text}, "4 refused 0 7"),
        ("499,998 letters in place of one of two", letters(2), {**replace, "from": 2, "to": 3, "slice": text}, "4 refused 0 7"),
        ("499,998 letters between a quote and a list", apart, {**replace, "from": 4, "to": 11, "slice": text}, "4 refused 0 6"),
    ):
        made = lambda doc=doc, step=step: session({"nodes": blocks}, doc, None, [op(op="step", step=step)])
        yield row(name, made, replay=(0, first))


def clients():
    """Clients, their names, their cursors and their messages."""
    for count, told in ((1, ok(0, 2)), (31, ok(0, 2)), (32, ok(0, 2)), (0, {"any": refused(3, 19)}), (33, {"any": refused(3, 19)})):
        names = [f"c{it}" for it in range(count)]
        yield row(f"{count} clients", lambda names=names: session(None, None, names), **told)
        if count:
            raw = [{"raw": it} for it in names]
            yield row(f"{count} raw clients", lambda raw=raw: session(None, None, raw), **told)
    for name, told in (("a" * 15, ok(0, 2)), ("a" * 16, ok(0, 2)), ("a" * 17, {"any": refused(3, 19)}), ("", {"any": refused(3, 19)})):
        yield row(f"a client's name of {len(name)}", lambda name=name: session(None, None, [name]), **told)
    for count, told in ((63, ok(63, 2, "4 cursor 1")), (64, ok(64, 2, "4 cursor 1")), (65, {"any": refused(68, 18)})):
        yield row(f"{count} cursors", lambda count=count: session(ops=[op(op="cursor", pos=1)] * count), **told)
    two = [op(op="cursor", pos=1), {"c": "b", "op": "cursor", "pos": 0}] * 64
    yield row("64 cursors of each of two", lambda: session(None, None, ["a", "b"], two), **ok(128, 2, "4 cursor 1"))
    for number, told in ((0, {"any": refused(6, 17)}), (1, ok(3, 2)), (2, ok(3, 2)), (3, {"any": refused(6, 17)})):
        asks = [op(op="ask"), op(op="submit"), op(op="present", message=number)]
        yield row(f"message {number} of 2", lambda asks=asks: session(ops=asks), **told)
    for number, told in ((0, {"any": refused(6, 17)}), (1, ok(3, 2)), (2, {"any": refused(6, 17)})):
        takes = [op(op="ask"), op(op="present", message=1), op(op="take", answer=number)]
        yield row(f"answer {number} of 1", lambda takes=takes: session(ops=takes), **told)


def numbers():
    """Whole numbers of 32 bits in each field that has one, and sides."""
    for number, is_well in (
        ("0", True),
        ("4294967294", True),
        ("4294967295", True),
        ("4294967296", False),
        ("-1", False),
        ("1.0", False),
        ("1e0", False),
        ("18446744073709551616", False),
        ('"1"', False),
    ):
        for fields in (
            f'"op":"text","from":{number},"to":0,"text":""',
            f'"op":"text","from":0,"to":{number},"text":""',
            f'"op":"split","pos":0,"depth":{number}',
            f'"op":"join","pos":{number}',
            f'"op":"cursor","pos":{number}',
            f'"op":"step","step":{{"stepType":"replace","from":{number},"to":0}}',
            f'"op":"step","step":{{"stepType":"replaceAround","from":0,"to":0,"gapFrom":0,"gapTo":0,"insert":{number}}}',
            f'"op":"delete","from":0,"to":0,"event":{number}',
        ):
            line = f'{{"c":"a",{fields}}}'
            told = ok(1, 2) if is_well else {"any": refused(4, 6)}
            yield row(f"{number} in {fields[:40]}", lambda line=line: session(ops=[line]), **told)
        forge = f'{{"c":"x","op":"forge","version":{number},"steps":[]}}'
        told = ok(1, 2) if is_well else {"any": refused(4, 6)}
        yield row(f"{number} in forge", lambda forge=forge: session(None, None, [{"raw": "x"}], [forge]), **told)
    for side, is_well in (("1", True), ("-1", True), ("0", False), ("2", False), ("-2", False), ("null", True)):
        line = f'{{"c":"a","op":"cursor","pos":0,"side":{side}}}'
        told = ok(1, 2, "4 cursor 0") if is_well else {"any": refused(4, 6)}
        yield row(f"the side {side}", lambda line=line: session(ops=[line]), **told)


def words():
    """Words of `gen` at each of its limits, and of other forms: the words, the status, and the first line."""
    yield from (
        ([*it.split(" ")], 0, f"gen {' '.join(it.split(' ')[1:])}") for it in ("gen 1 1 1", "gen 31 1 1", "gen 32 1 1", "gen 1 0 0")
    )
    yield from (([*it.split(" ")], 2, "") for it in ("gen 0 1 1", "gen 33 1 1", "gen 1 100001 1", "gen 2 50001 1", "gen 32 3126 1"))
    yield from (([*f"gen 1 1 {it}".split(" ")], 0, f"gen 1 1 {it}") for it in (0, 2**64 - 2, 2**64 - 1))
    yield from (([*f"gen 1 1 {it}".split(" ")], 2, "") for it in (2**64, 10**20 - 1))
    # A number has one to twenty digits, which may begin with zeros, and nothing else.
    for at in range(3):
        for digits, is_well in ((1, True), (19, True), (20, True), (21, False)):
            numbers = ["1", "1", "1"]
            numbers[at] = "1".zfill(digits)
            yield ["gen", *numbers], *((0, "gen 1 1 1") if is_well else (2, ""))
        for text in ("", "-1", "+1", "1.0", " 1", "1 ", "x", "0x1", "\u0661", "1e0"):
            numbers = ["1", "1", "1"]
            numbers[at] = text
            yield ["gen", *numbers], 2, ""
    yield from (
        (it, 2, "")
        for it in (
            [],
            [""],
            ["gen"],
            ["gen", "1", "1"],
            ["gen", "1", "1", "1", "1"],
            ["check", ""],
            ["replay", "run"],
            ["run", "run"],
            ["Check"],
            ["check "],
            ["--help"],
        )
    )


def long_words():
    """Words of `gen` that make as many lines as may be, or one less."""
    return [([*it.split(" ")], 0, it) for it in ("gen 1 99999 1", "gen 1 100000 1", "gen 2 49999 1", "gen 2 50000 1")]


ROWS = []


def limits():
    """All rows: name, what makes the input, and for each word (or `any`) status and first line."""
    if not ROWS:
        ROWS.extend([*inputs(), *schemas(), *documents(), *large_steps(), *clients(), *numbers()])
    return ROWS
