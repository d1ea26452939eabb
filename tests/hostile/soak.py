"""Plays sessions, halls of rooms and talks of new numbers beside each other for hours, each with a judge.

usage: soak.py HOURS [KIND..]
       soak.py again KIND SEED WORKER PLACE     plays one case anew, by the numbers that a fault is told with

kinds, all where none is named:
  gen       what `gen` writes of three numbers is what `replay` writes of the lines that they make; `check`, `select` and `late` agree
  run       a session under `run`: `replay` of the lines in the printed order writes the same report
  late      a session whose clients enter late: the report is that of clients that were there from the first, and pulled there;
            `at` writes the first document, the last one, and documents of versions between
  runrooms  a hall of rooms: `rooms` of each room's lines in the printed order writes the same report
  live      a talk of the live authority: `replay` of its submissions as a raw client's comes to the same answers and document
  library   sessions through the talks of an authority and of its clients (tests/library/play.py), where ./pm lib has built them:
            the whole report is that of `replay`, and each view comes to its client's document by the steps that it was told
  node      editors over ProseMirror's libraries (live/test.js), where node has them
  house     such editors of many documents of a house, beside a process for each document (live/house-test.js)

Each worker goes from kind to kind. Each run has a limit of memory, MEMORY in bytes (2,000,000,000 where it is absent; node has none, since
it reserves more addresses), and one of time. SEED sets the seed, which is printed, JOBS how many workers there are, and FINDS the folder
in which an input is kept at which a run failed; of each kind the first twenty faults are told and kept, and all are counted. Every ten
minutes the counts are told, and at the end. A worker that was killed counts as a fault.
"""
import os, queue, random, resource, sys, tempfile

sys.path[:0] = [os.path.dirname(os.path.abspath(__file__)), os.path.dirname(os.path.dirname(os.path.abspath(__file__))) + "/library"]
from playing import *
import drawing, talks
from talks import LIVE, size_of

SEED = int(os.environ.get("SEED", random.randrange(2**32)))
FINDS = os.environ.get("FINDS") or tempfile.mkdtemp(prefix="soak-")
MEMORY = int(os.environ.get("MEMORY", 2_000_000_000))
PREFIX = os.environ.get("GEZHUFET_PREFIX", f"{TOP}/out")
# The seconds that a run may take where many run beside it, and the seconds between two lines of counts.
LONG, TOLD_EACH = 600, 600
# The faults of a kind that are told and kept.
FAULTS_TOLD = 20


class Wrong(Exception):
    """A run came to what it may not come to; with the input."""


def ensure(holds, what, data=b""):
    if not holds:
        raise Wrong(what, data)


def written(words, data=b""):
    """What the program writes of an input that is a session."""
    played = play(words.split(), data, longest=LONG)
    fault = fault_of(words, played) if not words.startswith("gen") else None
    ensure(not fault and played.status == 0, f"{words}: {fault or played.status} {played.out[:80]!r} {played.err[-80:]!r}", data)
    return played.out


def file_of(lines):
    return "".join(talks.dumped(it) + "\n" for it in lines).encode()


# ---- sessions


class Drawn:
    """The lines of one session, drawn one after another. What a client has composed and got is counted, since lines name it."""

    def __init__(self, draws, names, raw=()):
        self.draws, self.names, self.raw = draws, names, raw
        self.messages, self.answers, self.cursors = ({it: 0 for it in names} for _ in range(3))

    def line(self, name):
        return {"c": name, **(self.forged() if name in self.raw else self.op(name))}

    def forged(self):
        at = self.draws.randrange(12)
        step = {"stepType": "replace", "from": at, "to": at + self.draws.choice((0, 0, 1))}
        steps = [{**step, "slice": {"content": [talks.text("r")]}}] * self.draws.randrange(3)
        return {"op": "forge", "version": self.draws.randrange(20), "steps": steps}

    def op(self, name):
        kind = self.draws.randrange(12)
        if kind < 6:
            made = self.edit()
            return {**made, "event": self.draws.randrange(4)} if self.draws.randrange(4) == 0 else made
        if kind == 6:
            return self.draws.choice(({"op": "undo"}, {"op": "redo"}, {"op": "undoevent", "event": self.draws.randrange(4)}))
        if kind == 7 and self.cursors[name] < 60:
            self.cursors[name] += 1
            return {"op": "cursor", "pos": self.draws.randrange(12), "side": self.draws.choice((1, -1))}
        return self.exchange(name)

    def exchange(self, name):
        kind = self.draws.choice("push push push pull pull submit ask present present take take".split())
        if kind == "take" and self.answers[name]:
            return {"op": "take", "answer": self.draws.randint(max(1, self.answers[name] - 3), self.answers[name])}
        if kind == "present" and self.messages[name]:
            self.answers[name] += 1
            return {"op": "present", "message": self.draws.randint(max(1, self.messages[name] - 3), self.messages[name])}
        self.messages[name] += 1
        if kind in ("submit", "ask"):
            return {"op": kind}
        self.answers[name] += 1
        return {"op": "pull" if kind == "pull" else "push", "lost": self.draws.randrange(5) == 0}

    def edit(self):
        draws = self.draws
        at = draws.randrange(30)
        to = at + draws.randrange(6)
        kind = draws.randrange(16)
        if kind < 5:
            return {"op": "text", "from": at, "to": draws.choice((at, at, to)), "text": draws.choice(("a", "é", "\U0001f600", "some"))}
        if kind < 8:
            return {"op": "delete", "from": at, "to": to}
        if kind < 10:
            mark = draws.choice(talks.MARKS)
            return {"op": draws.choice(("addmark", "addmark", "removemark")), "from": at, "to": to, "mark": mark}
        if kind == 10:
            return {"op": draws.choice(("split", "split", "join")), "pos": at}
        if kind == 11:
            return {"op": "wrap", "from": at, "to": to, "type": "blockquote"}
        if kind == 12:
            return draws.choice(({"op": "lift", "pos": at}, {"op": "settype", "pos": at, "type": "heading", "attrs": {"level": 2}}))
        if kind == 13:
            return {"op": "attr", "pos": at, "attr": "level", "value": draws.randrange(4)}
        if kind == 14:
            return {"op": "insert", "pos": at, "node": draws.choice((talks.IMAGE, talks.block("paragraph")))}
        halves = {"content": [talks.block("paragraph", talks.text("one")), talks.block("paragraph")], "openStart": 1, "openEnd": 1}
        return {"op": "paste", "from": at, "to": draws.choice((at, to)), "slice": halves}


# The schema of `gen`, with an attribute of images that has a default, as talks.IMAGE gives it too.
SCHEMA = {**drawing.SCHEMA, "version": 2}


def drawn(draws, rounds, raw=0):
    """A session of two to six editors and some raw clients, of so many rounds."""
    names = [f"c{it}" for it in range(draws.randint(2, 6))]
    rough = names[:raw]
    made = Drawn(draws, names, rough)
    entries = [{"raw": it} if it in rough else it for it in names]
    return [SCHEMA, drawing.DOC, entries, *(made.line(name) for _ in range(rounds) for name in names)]


# ---- kinds: each plays one case, and gives its counts


def gen(draws):
    clients = draws.randint(1, 8)
    made = (clients, draws.randint(1, 800 // clients), draws.randrange(2**64))
    lines = drawing.drawn(*made)
    data = file_of(lines)
    report = written("replay", data)
    told = dict(it.split(" ", 1) for it in written("gen {} {} {}".format(*made)).decode().splitlines())
    final = json.loads(report.rpartition(b"final ")[2])
    log = int(re.search(rb"^log (\d+)$", report, re.M)[1])
    dropped = sum(len(json.loads(it)) for it in re.findall(rb"^settled \w+ \d+ (\[.*?\]) ", report, re.M))
    sums = {"gen": " ".join(map(str, made)), "lines": len(lines) - 3, "log": log, "dropped": dropped, "size": size_of(final) - 2}
    ensure(told == {key: str(it) for key, it in sums.items()}, f"gen tells {told}, and the report {sums}", data)
    runs = {it: play(it.split(), data, longest=LONG) for it in ("check", "select", "late", f"at {draws.randrange(log + 2)}")}
    fault = fault_between({**runs, "replay": Played(0, report, b"", 0)})
    ensure(not fault and all(it.status == 0 for it in runs.values()), f"{fault} {[it.status for it in runs.values()]}", data)
    return {"lines": len(lines), "steps": log}


def run(draws):
    lines = drawn(draws, draws.randint(5, 40), draws.choice((0, 0, 1)))
    data = file_of(lines)
    out = written("run", data)
    ensure(same_order(data, out, LONG), "run wrote another report than replay in the printed order", data)
    return {"lines": len(lines), "steps": int(re.search(rb"^log (\d+)$", out, re.M)[1]), "order": out.partition(b"\n")[0]}


def entering(lines, late):
    """The lines with these clients coming late, before their first line; and the same where they are there, and pull instead."""
    enter, pull, seen = [], [], set()
    for op in lines[3:]:
        name = op["c"]
        if name in late and name not in seen:
            seen.add(name)
            enter.append({"c": name, "op": "enter"})
            pull.append({"c": name, "op": "pull"})
        enter.append(op)
        # Who pulled has one message and one answer more.
        pull.append({**op, **{key: op[key] + 1 for key in ("message", "answer") if name in late and key in op}})
    return [*lines[:2], [{"late": it} if it in late else it for it in lines[2]], *enter], [*lines[:3], *pull]


def outcomes(report, ops):
    """The lines of a report, but for the outcomes of entering, and the numbers of what was composed."""
    shown = [re.sub(rb" composed \d+$", b" composed", it) for it in report.split(b"\n")]
    return [it for at, it in enumerate(shown) if at >= len(ops) or ops[at]["op"] != "enter"]


def late(draws):
    lines = drawn(draws, 0)
    names = lines[2]
    comers = draws.sample(names, draws.randint(1, len(names) - 1))
    made = Drawn(draws, names)
    first = [made.line(it) for _ in range(draws.randint(1, 10)) for it in names if it not in comers]
    rest = [made.line(it) for _ in range(draws.randint(1, 20)) for it in names]
    entered, pulled = entering([*lines, *first, *rest], comers)
    data = file_of(entered)
    out = written("late", data)
    one, two = (outcomes(it, entered[3:]) for it in (out, written("replay", file_of(pulled))))
    differs = next((it for it in zip(one, two) if it[0] != it[1]), len(one) != len(two))
    ensure(not differs, f"who enters comes to another report than who pulls: {differs}", data)
    log = int(re.search(rb"^log (\d+)$", out, re.M)[1])
    runs = {"late": Played(0, out, b"", 0)}
    runs |= {it: play(it.split(), data, longest=LONG) for it in ("at 0", f"at {log}", f"at {draws.randrange(log + 2)}", f"at {2**64 - 1}")}
    fault = next((it for it in (fault_of(word, played) for word, played in runs.items()) if it), None) or fault_between(runs)
    ensure(not fault, f"{fault}", data)
    begun = json.dumps(drawing.DOC, separators=(",", ":"), sort_keys=True).encode()
    ensure(runs["at 0"].out == b"at 0 " + begun + b"\n", "at 0 does not write the first document", data)
    return {"lines": len(entered), "steps": log}


def runrooms(draws):
    rooms = [f"r{it}" for it in range(draws.randint(1, 16))]
    people = [f"c{it}" for it in range(draws.randint(1, 8))]
    heads, ops, made = [], [], {}
    for room in rooms:
        there = draws.sample(people, draws.randint(1, len(people)))
        rough = there[:1] if draws.randrange(4) == 0 else []
        made[room] = Drawn(draws, there, rough)
        heads += [SCHEMA, drawing.DOC, [{"raw": it} if it in rough else it for it in there]]
    for _ in range(draws.randint(20, 400)):
        room = draws.choice(rooms)
        ops.append({"room": room, **made[room].line(draws.choice(made[room].names))})
    data = file_of([rooms, *heads, *ops])
    out = written("runrooms", data)
    ensure(same_room_orders(data, out, LONG), "runrooms wrote another report than rooms in the printed orders", data)
    steps = sum(map(int, re.findall(rb"^log (\d+)$", out, re.M)))
    return {"lines": len(ops), "steps": steps, "order": b" ".join(re.findall(rb"^order.*$", out, re.M))}


def told_as(answer):
    """How a report tells an authority's answer to a submission."""
    if "accepted" in answer:
        return "accepted {from} {count}".format(**answer["accepted"])
    if "refused" in answer:
        it = answer["refused"]
        return f"refused {it['index']} {it['reason']}" + (f" {it['at']}" if "at" in it else "")
    return f"version {answer['version']}"


def live(draws):
    lines = talks.talk(draws.randrange(2**64), draws.randint(20, 300))
    given = [*talks.opening(), *lines]
    data = file_of(given)
    played = play(LIVE.split()[1:], data, None, LONG, LIVE.split()[0])
    answers = played.out.decode().split("\n")
    ensure((played.status, played.err, len(answers)) == (0, b"", len(given)), f"live: status {played.status}", data)
    pairs = [(json.loads(line), json.loads(answer)) for line, answer in zip(lines, answers[1:]) if '"fault"' not in answer[:9]]
    asked = [(line, answer) for line, answer in pairs if line["op"] == "submit"]
    forged = [{"c": "x", "op": "forge", "version": line["version"], "steps": line["steps"]} for line, _ in asked]
    report = written("replay", file_of([*talks.opening(), [{"raw": "x"}], *forged])).decode().split("\n")
    for (_, answer), outcome in zip(asked, report):
        ensure(told_as(answer) == outcome.partition(" ")[2], f"live answers {answer}, and replay {outcome}", data)
    docs = [answer["doc"] for line, answer in pairs if line["op"] == "doc" and answer["version"] == int(report[len(asked)].split()[1])]
    ensure(not docs or docs[-1] == json.loads(report[-2].partition(" ")[2]), "live and replay come to other documents", data)
    # What the log is told as, from any version on, is the end of what it is told as from 0 on.
    steps = [json.loads(it.split(" ", 3)[3]) for it in report[len(asked) + 1 : -2]]
    for line, answer in pairs:
        if line["op"] == "since":
            ensure(answer["steps"] == steps[line["version"] : answer["version"]], f"since {line['version']} is told otherwise", data)
    return {"lines": len(given), "steps": len(steps)}


def library(draws):
    number = draws.randrange(2**40)
    words = [f"{TOP}/tests/library/play.py", "--made", "6", "--from", str(number)]
    more = {"GEZHUFET_LIBRARY": f"{PREFIX}/lib/libgezhufet.so", "JOBS": "1", "PROGRAM": PROGRAM}
    # Those of `gen`, and some that have every op of an editor.
    sessions = {f"{it}.session": file_of(drawn(draws, draws.randint(3, 25))) for it in range(4)}
    with tempfile.TemporaryDirectory() as folder:
        for name, data in sessions.items():
            with open(f"{folder}/{name}", "wb") as file:
                file.write(data)
        played = play(words[1:] + [folder], b"", more, LONG, words[0])
    told = re.search(rb"^play: (\d+) op lines", played.out, re.M)
    wrong = next((data for name, data in sessions.items() if f"/{name}:".encode() in played.out), b"")
    what = f"play.py --made 6 --from {number}: {played.status} {played.out[-600:]!r} {played.err[-200:]!r}"
    ensure(played.status == 0 and told, what, wrong)
    return {"lines": int(told[1]), "steps": 0}


def editors(draws, script):
    """Runs a test of editors in node until a log, or some logs in all, have some number of steps."""
    number, steps = draws.randrange(2**31), draws.randint(100, 1500)
    more = {"PM_LIVE": LIVE, "NODE_PATH": "/usr/share/nodejs"}
    # Node reserves more addresses than the limit has.
    limit, _ = resource.getrlimit(resource.RLIMIT_AS)
    resource.setrlimit(resource.RLIMIT_AS, (resource.RLIM_INFINITY, resource.RLIM_INFINITY))
    played = play([f"{TOP}/{script}", str(steps), str(number)], b"", more, LONG, "node")
    resource.setrlimit(resource.RLIMIT_AS, (limit, resource.RLIM_INFINITY))
    ensure(played.status == 0, f"{script} {steps} {number}: {played.status} {played.out[-400:]!r} {played.err[-200:]!r}")
    return {"lines": 0, "steps": steps}


def node(draws):
    return editors(draws, "live/test.js")


def house(draws):
    return editors(draws, "live/house-test.js")


KINDS = {"gen": gen, "run": run, "late": late, "runrooms": runrooms, "live": live, "library": library, "node": node, "house": house}
NODE = ("node", "house")


def missing(kind):
    """Why a kind is left out, or None."""
    if kind in ("live", *NODE) and not os.access(LIVE.split()[0], os.X_OK):
        return f"there is no program at {LIVE}"
    if kind == "library" and not os.path.exists(f"{PREFIX}/lib/libgezhufet.so"):
        return f"there is no library below {PREFIX}"
    if kind in NODE:
        how = {"capture_output": True, "env": {**os.environ, "NODE_PATH": "/usr/share/nodejs"}, "check": False}
        try:
            ran = subprocess.run(["node", "-e", "require('prosemirror-state'); require('prosemirror-schema-list')"], **how)
        except FileNotFoundError:
            return "there is no node"
        return "node has no ProseMirror" if ran.returncode else None
    return None


# ---- the workers


def kept(kind, number, data):
    """Keeps an input, and returns where; a fault of some kinds has none, and is made anew by its numbers."""
    if not data:
        return "no input"
    name = f"{FINDS}/{kind}-{number.replace(' ', '-')}.input"
    with open(name, "wb") as file:
        file.write(data)
    return name


def case(kind, number, keeps=True):
    """Plays the case of these numbers, and returns its counts or its fault."""
    try:
        return KINDS[kind](random.Random(f"{kind} {number}"))
    except Wrong as fault:
        what, data = fault.args
        place = kept(kind, number, data) if keeps else "not kept"
        return {"fault": f"{place}: {kind} {number}: {what}"[:1000]}
    except Exception as fault:
        return {"fault": f"{kind} {number}: {type(fault).__name__}: {fault}"[:1000]}


def limit_memory():
    resource.setrlimit(resource.RLIMIT_AS, (MEMORY, resource.RLIM_INFINITY))


def work(worker, kinds, until, results):
    """Plays case after case until a time. The memory of a run is told where it took more than all before it."""
    limit_memory()
    at, most, faults = worker, 0, collections.Counter()
    while time.monotonic() < until:
        kind, number = kinds[at % len(kinds)], f"{SEED} {worker} {at}"
        at += 1
        counts = case(kind, number, faults[kind] < FAULTS_TOLD)
        faults[kind] += "fault" in counts
        memory = resource.getrusage(resource.RUSAGE_CHILDREN).ru_maxrss
        results.put((kind, counts, memory if memory > most else 0))
        most = max(most, memory)
    results.put(None)


class Sums:
    """What came of the runs so far, by kind."""

    def __init__(self, kinds):
        self.begun, self.failed = time.monotonic(), 0
        self.counts = {it: collections.Counter() for it in kinds}
        self.orders = {it: set() for it in kinds}
        self.memory = dict.fromkeys(kinds, 0)

    def add(self, kind, counts, memory):
        of_kind = self.counts[kind]
        self.memory[kind] = max(self.memory[kind], memory)
        of_kind["runs"] += 1
        if "order" in counts:
            self.orders[kind].add(hash(counts.pop("order")))
        if fault := counts.pop("fault", None):
            self.failed += 1
            of_kind["faults"] += 1
            if of_kind["faults"] <= FAULTS_TOLD:
                print(f"soak: {fault}", flush=True)
        of_kind.update(counts)

    def show(self):
        print(f"soak: {(time.monotonic() - self.begun) / 60:.0f} minutes", flush=True)
        for kind, it in self.counts.items():
            told = f", {len(self.orders[kind])} orders" if self.orders[kind] else ""
            told += f", {self.memory[kind] / 1000:.0f} MB at most" if self.memory[kind] else ""
            told += f", {it['faults']} FAULTS" if it["faults"] else ""
            print(f"soak:   {kind}: {it['runs']} runs, {it['lines']} lines, {it['steps']} steps{told}", flush=True)


def gather(results, workers, kinds):
    """Adds what the workers tell, until all have ended; returns how many runs were well, and how many were not."""
    sums, next_at, ended = Sums(kinds), TOLD_EACH, 0
    while ended < len(workers):
        try:
            told = results.get(timeout=60)
        except queue.Empty:
            # Who has ended and has told nothing for so long was killed.
            killed = [it for it in workers if it.exitcode not in (None, 0)]
            if len(killed) + ended == len(workers):
                print(f"soak: {len(killed)} workers were killed, by {[it.exitcode for it in killed]}")
                sums.failed += len(killed)
                break
            told = ()
        if told is None:
            ended += 1
        elif told:
            sums.add(*told)
        if time.monotonic() - sums.begun > next_at:
            next_at += TOLD_EACH
            sums.show()
    sums.show()
    return sum(it["runs"] - it["faults"] for it in sums.counts.values()), sums.failed


def soak(hours, kinds):
    for kind in [it for it in kinds if missing(it)]:
        print(f"soak: {kind} is left out, for {missing(kind)}")
        kinds.remove(kind)
    print(f"soak: seed {SEED}, {JOBS} side by side, finds in {FINDS}: {', '.join(kinds)}", flush=True)
    results, until = multiprocessing.Queue(), time.monotonic() + hours * 3600
    workers = [multiprocessing.Process(target=work, args=(it, kinds, until, results)) for it in range(JOBS)]
    for worker in workers:
        worker.start()
    passed, failed = gather(results, workers, kinds)
    for worker in workers:
        worker.join()
    end(passed, failed)


def main(words):
    if words[:1] == ["again"] and len(words) == 5 and words[1] in KINDS:
        need_program()
        limit_memory()
        print(case(words[1], " ".join(words[2:])))
    elif words and re.fullmatch(r"\d+(\.\d+)?|\.\d+", words[0]) and set(words[1:]) <= set(KINDS):
        need_program()
        soak(float(words[0]), words[1:] or [*KINDS])
    else:
        print(__doc__, file=sys.stderr)
        sys.exit(2)


if __name__ == "__main__":
    main(sys.argv[1:])
