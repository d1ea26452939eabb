"""Plays session files with random changes, and looks for a run that ends otherwise than docs/use/FORMATS.md says.

usage: fuzz.py SECONDS [WORD..]

Each input is a session of tests/sessions/ or examples/, or one that an earlier change made, with one to six changes of its bytes,
lines or JSON values. Under each word (WORDS, `late` and `at 2` where none is given) it has to end in time with a status of the
table and an output that the status allows, and the words have to agree on what they refuse. `late` and `at` play files that
clients may enter late, and agree with the other words on files that none does. What `run` writes has to be what `replay`
writes of the lines in the order that it shows, and each room's part of what `runrooms` writes what `rooms` writes of the
room's lines in the order shown there. The word `live`, by itself, has talks of the live authority changed (PM_LIVE): each line has
one answer, of a form of docs/use/LIVE.md. SEED sets the seed, which is printed, and JOBS how many runs go side by side: the inputs
are a function of both. An input at which a run fails is kept in FINDS (a new folder where it is absent).
"""
import hashlib, os, random, sys, tempfile

sys.path.insert(0, os.path.dirname(os.path.abspath(__file__)))
from playing import *
import talks

SECONDS = float(sys.argv[1])
# A name may be more words than one, as "at 2".
NAMED = sys.argv[2:] or [*words_given("check replay run"), "late", "at 2"]
IS_LIVE = NAMED == ["live"]
SEED = int(os.environ.get("SEED", random.randrange(2**32)))
FINDS = os.environ.get("FINDS") or tempfile.mkdtemp(prefix="fuzz-")
NUMBERS = [
    0,
    1,
    2,
    3,
    4,
    5,
    7,
    8,
    63,
    64,
    65,
    127,
    128,
    255,
    256,
    65535,
    65536,
    2**31,
    2**32 - 1,
    2**32,
    2**53,
    2**63 - 1,
    2**63,
    2**64,
    -1,
    -2,
]
TEXTS = [
    "",
    "x",
    "_",
    "a b",
    "é",
    "\U0001f600",
    "\u0000",
    "\ufeff",
    "doc",
    "text",
    "paragraph",
    "em",
    "block+",
    "inline*",
    "(a|b){2,3}",
    "x" * 300,
]
TOKENS = [
    b"{",
    b"}",
    b"[",
    b"]",
    b",",
    b":",
    b'"',
    b"\\",
    b"\n",
    b"\r",
    b" ",
    b"\t",
    b"\x00",
    b"\xff",
    b"\xc3",
    b"null",
    b"true",
    b"1e400",
    b"-0",
    b"\\ud83d",
    b"\\u0000",
    b"[[[[[[[[",
]


def places(value, found=None, holder=None, key=None):
    """Lists each value within a JSON value, with what holds it."""
    found = [] if found is None else found
    found.append((holder, key, value))
    for it, inner in enumerate(value) if isinstance(value, list) else value.items() if isinstance(value, dict) else ():
        places(inner, found, value, it)
    return found


def begun_sessions():
    """The sessions that changes begin with: those that are played, and those that are refused."""
    pool, refused = [], []
    for path in sessions():
        with open(path, "rb") as file:
            (refused if wanted(path)[2] else pool).append(file.read())
    return pool, refused


def begun_talks():
    """Talks of all kinds of lines; and one that has an opening alone."""
    opening = "".join(it + "\n" for it in talks.opening())
    made = (talks.talk(number, 60) for number in range(6))
    return [(opening + "".join(it + "\n" for it in lines)).encode() for lines in made], [opening.encode()]


class Changer:
    """Makes inputs, one after another, by a seed."""

    def __init__(self, seed):
        self.random = random.Random(seed)
        self.pool, self.refused = begun_talks() if IS_LIVE else begun_sessions()
        self.first = len(self.pool)

    def keep(self, data):
        """Keeps an input that was a session, so that later ones begin with it."""
        if len(data) < 20_000:
            if len(self.pool) < self.first + 400:
                self.pool.append(data)
            else:
                self.pool[self.random.randrange(self.first, len(self.pool))] = data

    def next(self):
        data = self.random.choice(self.pool if self.random.random() < 0.9 else self.refused)
        is_gentle = self.random.random() < 0.6
        for _ in range(self.random.choice((1, 1, 1, 2, 2, 3, 4, 6))):
            how = (self.ops,) if is_gentle else (self.bytes, self.lines, self.lines, self.values, self.values, self.ops)
            data = self.random.choice(how)(data)
        return data

    def ops(self, data):
        """Changes that mostly leave a session: op lines moved and repeated, more exchange, and other positions."""
        lines, pick = data.split(b"\n"), self.random.randrange(7)
        head, tail = lines[:3], [it for it in lines[3:] if it]
        if not tail:
            return data
        at, to = self.random.randrange(len(tail)), self.random.randrange(len(tail))
        if pick == 0:
            tail.insert(to, tail.pop(at))
        elif pick == 1:
            tail[to:to] = [tail[at]] * self.random.choice((1, 2, 20))
        elif pick == 2:
            del tail[at]
        elif pick == 3 and (name := re.search(rb'"c":("[a-z0-9]+")', tail[at])):
            what = self.random.choice((b"push", b"pull", b"undo", b"redo", b"submit", b"ask"))
            lost = self.random.choice((b"", b"", b',"lost":true')) if what.startswith(b"pu") else b""
            tail[to:to] = [b'{"c":%s,"op":"%s"%s}' % (name[1], what, lost)]
        else:
            numbers = [*re.finditer(rb"(?<=[:,\[])\d{1,9}(?=[,}\]])", tail[at])]
            chosen = self.random.sample(numbers, min(len(numbers), self.random.choice((1, 1, 2, 3))))
            for it in sorted(chosen, key=lambda it: -it.start()):
                number = max(0, int(it[0]) + self.random.choice((-3, -2, -1, -1, 1, 1, 2, 3, 8)))
                tail[at] = tail[at][: it.start()] + b"%d" % number + tail[at][it.end() :]
        return b"\n".join(head + tail) + b"\n"

    def bytes(self, data):
        pick, data = self.random.randrange(6), bytearray(data)
        at = self.random.randrange(len(data) + 1)
        to = min(len(data), at + self.random.choice((1, 1, 2, 8, 100)))
        if pick == 0:
            del data[at:to]
        elif pick == 1:
            data[at:at] = self.random.choice(TOKENS)
        elif pick == 2 and at < len(data):
            data[at] ^= 1 << self.random.randrange(8)
        elif pick == 3:
            data[at:at] = data[at:to] * self.random.choice((1, 2, 40))
        elif pick == 4:
            other = self.random.choice(self.pool)
            data[at:to] = other[at : at + self.random.choice((1, 10, 200))]
        else:
            del data[at:]
        return bytes(data)

    def lines(self, data):
        lines, pick = data.split(b"\n"), self.random.randrange(8)
        at, to = self.random.randrange(len(lines)), self.random.randrange(len(lines))
        if pick == 0:
            del lines[at]
        elif pick == 1:
            lines[at:at] = [lines[at]] * self.random.choice((1, 2, 70))
        elif pick == 2:
            lines[at], lines[to] = lines[to], lines[at]
        elif pick == 3:
            other = self.random.choice(self.pool).split(b"\n")
            lines[max(at, 3) : max(at, 3)] = other[3:][: self.random.choice((1, 3, 100))]
        elif pick == 4:
            other = self.random.choice(self.pool).split(b"\n")
            lines[: self.random.randrange(4)] = other[: self.random.randrange(4)]
        elif pick == 5 and len(lines) > 3:
            tail = lines[3:]
            self.random.shuffle(tail)
            lines[3:] = tail
        elif pick == 6:
            # What clients send one another: more exchange between the lines.
            for it in range(len(lines) - 1, 2, -1):
                if self.random.random() < 0.3 and (name := re.search(rb'"c":("[a-z0-9]+")', lines[it])):
                    what = self.random.choice((b"push", b"pull", b"undo", b"redo", b"submit", b"ask"))
                    lines[it:it] = [b'{"c":%s,"op":"%s"}' % (name[1], what)]
        else:
            lines[at] = self.random.choice(self.pool).split(b"\n")[0] if at == 0 else lines[to]
        return b"\n".join(lines)

    def values(self, data):
        lines = data.split(b"\n")
        # Most changes are in op lines; the schema is long, and the others are read only after it.
        at = self.random.choice((0, 1, 1, 2)) if self.random.random() < 0.4 else self.random.randrange(len(lines))
        at = min(at, len(lines) - 1)
        try:
            root = [json.loads(lines[at])]
            found = places(root)[1:]
        except (ValueError, RecursionError):
            return self.bytes(data)
        for _ in range(self.random.choice((1, 1, 2, 3))):
            holder, key, value = self.random.choice(found)
            try:
                self.change(holder, key, value, found)
            except (KeyError, IndexError):
                pass
        if not root:
            del lines[at]
            return b"\n".join(lines)
        lines[at] = json.dumps(root[0], separators=(",", ":"), ensure_ascii=self.random.random() < 0.5).encode("utf-8", "surrogatepass")
        return b"\n".join(lines)

    def change(self, holder, key, value, found):
        pick = self.random.randrange(9)
        if pick < 3 and isinstance(value, int) and not isinstance(value, bool):
            holder[key] = value + self.random.choice((-2, -1, 1, 1, 2, 5)) if pick else self.random.choice(NUMBERS)
        elif pick < 3 and isinstance(value, str):
            texts = [it for _, _, it in found if isinstance(it, str)]
            holder[key] = self.random.choice((self.random.choice(TEXTS), self.random.choice(texts), value + self.random.choice(TEXTS)))
        elif pick == 3:
            del holder[key]
        elif pick == 4:
            holder[key] = json.loads(json.dumps(self.random.choice(found)[2]))
        elif pick == 5 and isinstance(value, list):
            value.extend(json.loads(json.dumps(value))[: self.random.choice((1, 2, 5))])
        elif pick == 6 and isinstance(value, list) and value:
            self.random.shuffle(value)
        elif pick == 7 and isinstance(value, dict) and value:
            it = self.random.choice(list(value))
            value[self.random.choice((self.random.choice(TEXTS), *value))] = value.pop(it)
        else:
            holder[key] = self.random.choice(
                (None, True, False, [], {}, [[[[0]]]], 1.5, self.random.choice(NUMBERS), self.random.choice(TEXTS))
            )


def shown(data, fault):
    """Keeps an input at which a run failed, and tells of it."""
    name = f"{FINDS}/{hashlib.sha256(data).hexdigest()[:12]}.session"
    with open(name, "wb") as file:
        file.write(data)
    print(f"{name}: {fault}", flush=True)


def tried_talk(data):
    """The faults of a talk, and whether it was opened."""
    played = play(talks.LIVE.split()[1:], data, None, LONGEST, talks.LIVE.split()[0])
    fault = talks.fault_of_talk(data, played)
    return [fault] if fault else [], played.status == 0


def tried(data):
    """The faults of one input, and whether it is a session."""
    if IS_LIVE:
        return tried_talk(data)
    runs = {word: play(word.split(), data) for word in NAMED}
    faults = [it for it in (fault_of(word, played) for word, played in runs.items()) if it]
    if not faults and (fault := fault_between(runs)):
        faults.append(fault)
    for word, played in runs.items():
        if not faults and (fault := fault_of_order(word, data, played)):
            faults.append(fault)
    return faults, any(it.status == 0 for it in runs.values())


def work(number, until, results):
    try:
        results.put(counted(number, until))
    except BaseException as fault:
        results.put((0, 1, 0))
        raise fault


def counted(number, until):
    """Tries inputs until a time, and returns how many ran well, how many did not, and how many were sessions."""
    changer, passed, failed, whole = Changer(f"{SEED} {number}"), 0, 0, 0
    while time.monotonic() < until:
        data = changer.next()
        faults, is_session = tried(data)
        if is_session:
            changer.keep(data)
            whole += 1
        if faults:
            failed += 1
            shown(data, "; ".join(faults))
        else:
            passed += 1
    return passed, failed, whole


def main():
    talks.need_live() if IS_LIVE else need_program()
    print(f"seed {SEED}, {JOBS} side by side, words {', '.join(NAMED)}", flush=True)
    results, until = multiprocessing.Queue(), time.monotonic() + SECONDS
    workers = [multiprocessing.Process(target=work, args=(it, until, results)) for it in range(JOBS)]
    for worker in workers:
        worker.start()
    counts = [results.get() for _ in workers]
    for worker in workers:
        worker.join()
    passed, failed, whole = map(sum, zip(*counts))
    print(f"{whole} of {passed + failed} inputs were {'opened talks' if IS_LIVE else 'sessions'}")
    end(passed, failed)


if __name__ == "__main__":
    main()
