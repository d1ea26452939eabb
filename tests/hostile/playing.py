"""Plays session files by the built program, and judges what comes back by the tables of docs/use/FORMATS.md."""
import collections, glob, json, multiprocessing, os, re, subprocess, sys, time

TOP = os.path.dirname(os.path.dirname(os.path.dirname(os.path.abspath(__file__))))
PROGRAM = os.environ.get("PROGRAM", f"{TOP}/crates/pm_program/out/pm_program")
EVERY_WORD = "check replay select run late at 2 rooms runrooms"
JOBS = int(os.environ.get("JOBS", len(os.sched_getaffinity(0))))
# The seconds that a run may take.
LONGEST = 10
TOLD = {0: b"", 1: b"", 2: b"usage: ", 3: b"read fault\n", 4: b"write fault\n", 5: b"no memory\n"}

Played = collections.namedtuple("Played", "status out err seconds")


def words_given(absent):
    """The words that WORDS names, or those that are meant where it is absent. A number belongs to the word before it: `at 2` is one."""
    return [it.replace("\0", " ") for it in re.sub(r" +(?=\d)", "\0", os.environ.get("WORDS", absent)).split()]


def need_program():
    if not os.access(PROGRAM, os.X_OK):
        print(f"there is no program at {PROGRAM}; ./pm build makes it", file=sys.stderr)
        sys.exit(2)


def play(words, session, variables=None, longest=LONGEST, program=None):
    """Plays a session, which is a path or bytes. A status below 0 is the signal that ended the run; None: it took too long."""
    begun = time.monotonic()
    how = {"capture_output": True, "timeout": longest, "env": {**os.environ, **variables} if variables else None}
    command = [*([program] if program else [PROGRAM]), *words]
    try:
        if isinstance(session, bytes):
            ran = subprocess.run(command, input=session, check=False, **how)
        else:
            with open(session, "rb") as file:
                ran = subprocess.run(command, stdin=file, check=False, **how)
    except subprocess.TimeoutExpired:
        return Played(None, b"", b"", time.monotonic() - begun)
    return Played(ran.returncode, ran.stdout, ran.stderr, time.monotonic() - begun)


def sessions():
    """Returns the paths of all sessions of tests/sessions/ and examples/."""
    return sorted(glob.glob(f"{TOP}/tests/sessions/*/*.session")) + sorted(glob.glob(f"{TOP}/examples/*.session"))


def wanted(path):
    """Returns the words of a case, and the output and the status that are stored beside it."""
    name = path[: -len(".session")]
    words = open(f"{name}.words").read().split() if os.path.exists(f"{name}.words") else ["replay"]
    status = int(open(f"{name}.status").read()) if os.path.exists(f"{name}.status") else 0
    with open(f"{name}.out", "rb") as file:
        return words, file.read(), status


NUMBERS = r"\[(?:\d+(?:,\d+)*)?\]"
TELLS = r"(?:accepted \d+ \d+|version \d+|refused \d+ (?:[1-8]|9 \d+|1[0-2])|entries \d+ \d+)"
TAKES = r"(?:confirmed \d+|rebased \d+ \d+ \d+|stale|kept)"
OUTCOME = re.compile(
    rf"(\d+) (?:made \d+|refused 0 (?:[1-8]|9 \d+|1[0-2])|no place|no fit|no range|nothing|cursor \d+|composed [1-9]\d*"
    rf"|entered \d+|{TELLS}|{TAKES}|{TELLS}; (?:{TAKES}|lost))"
)
CLIENT = re.compile(rf"client ([a-z0-9]{{1,16}}) (\d+) {NUMBERS} {NUMBERS} {NUMBERS} (\{{.*\}})")
ENTRY = re.compile(r"(\d+) [a-z0-9]{1,16} [1-9]\d* (\{.*\})")
SETTLED = re.compile(rf"settled ([a-z0-9]{{1,16}}) (\d+) {NUMBERS} {NUMBERS}")


VERSION = re.compile(r"at (\d+) (\{.*\})|past (\d+)")


def takes_late(word):
    """Whether a word plays session files whose clients may enter late."""
    return word.split()[0] in ("late", "at")


def takes_rooms(word):
    """Whether a word plays files of many rooms."""
    return word in ("rooms", "runrooms")


def is_compact(text):
    """Whether a text is compact JSON with its keys in byte order."""
    return json.dumps(json.loads(text), sort_keys=True, separators=(",", ":"), ensure_ascii=False) == text


def fault_of_report(text, first=4):
    """What is wrong with the form of a report; None where nothing is. The outcomes are those of the lines from number `first` on;
    of a room, for which `first` is None, they have rising numbers."""
    lines = text.split("\n")
    if lines.pop() != "":
        return "the last line does not end"
    at = 0
    if lines and lines[0].startswith(("order", "apart")):
        at = 1
    ops, last = at, 0
    while at < len(lines) and (told := OUTCOME.fullmatch(lines[at])):
        if int(told[1]) <= last if first is None else int(told[1]) != at - ops + first:
            break
        last = int(told[1])
        at += 1
    names = []
    while at < len(lines) and (told := CLIENT.fullmatch(lines[at])) and is_compact(told[3]):
        names.append(told[1])
        at += 1
    head = re.fullmatch(r"log (\d+)", lines[at]) if at < len(lines) else None
    if not head:
        return f"line {at + 1} of the report is of no form"
    entries = lines[at + 1 : at + 1 + int(head[1])]
    for number, line in enumerate(entries, 1):
        told = ENTRY.fullmatch(line)
        if not told or int(told[1]) != number or not is_compact(told[2]):
            return f"entry {number} of the log is of no form"
    at += 1 + len(entries)
    for name in names:
        told = SETTLED.fullmatch(lines[at]) if at < len(lines) else None
        if not told or told[1] != name or told[2] != head[1]:
            return f"{name} is not settled at the log's length"
        at += 1
    if at + 1 != len(lines) or not lines[at].startswith("final ") or not is_compact(lines[at][len("final ") :]):
        return "the last line is not the final document"
    return None


def fault_of_rooms(text):
    """What is wrong with the form of the reports of many rooms, each after the line with its name."""
    before, *parts = re.split(r"^room ([a-z0-9]{1,16})\n", text, flags=re.M)
    if before or not 1 <= len(parts) // 2 <= 16:
        return "the rooms are told in no form"
    faults = ((name, fault_of_report(part, None)) for name, part in zip(parts[::2], parts[1::2]))
    return next((f"room {name}: {fault}" for name, fault in faults if fault), None)


def is_version(number, text):
    """Whether a text is the line of this version, or says that there are fewer steps."""
    told = VERSION.fullmatch(text.removesuffix("\n"))
    if not told or not text.endswith("\n"):
        return False
    return int(told[3]) < number if told[3] else int(told[1]) == number and is_compact(told[2])


def fault_of(word, played):
    """What is wrong with a run in which nothing failed: its status, its time, or an output that the status does not allow."""
    if played.status is None:
        return f"{word} took more than {LONGEST} seconds"
    if played.status not in (0, 1):
        return f"{word} ended with {played.status}: {played.err[-300:]!r}"
    if played.err:
        return f"{word} told {played.err[-300:]!r} with status {played.status}"
    text = played.out.decode()
    if played.status == 1:
        told = re.fullmatch(r"refused (\d+) (\d+)\n", text)
        codes = [*range(1, 20), *([25] if takes_late(word) else [23, 24] if takes_rooms(word) else [])]
        return None if told and int(told[2]) in codes else f"{word} refused by {text[:100]!r}"
    if word == "check":
        return None if re.fullmatch(r"ok \d+ \d+\n", text) else f"check wrote {text[:100]!r}"
    if word.startswith("at "):
        return None if is_version(int(word.split()[1]), text) else f"{word} wrote {text[:100]!r}"
    fault = fault_of_rooms(text) if takes_rooms(word) else fault_of_report(text)
    return fault and f"{word}: {fault}"


def fault_between(runs):
    """Where the words do not agree on one input: `runs` is what each word made of it. A session that no client enters late is
    one session to all words; of one that clients enter late, the words that play it agree."""
    refused = {word: played.out if played.status == 1 else None for word, played in runs.items()}
    for late in (False, True):
        if len({told for word, told in refused.items() if takes_late(word) == late}) > 1:
            return f"the words differ: {refused}"
    if fault := fault_of_late(runs):
        return fault
    counts, report, apart = runs.get("check"), runs.get("replay"), runs.get("select")
    if apart and report and report.status == 0 and apart.out.partition(b"\n")[2] != report.out:
        return "select and replay write different reports"
    if counts and report and counts.status == 0 and report.status == 0:
        ops = next(at for at, it in enumerate(report.out.split(b"\n")) if it.startswith((b"client ", b"log ")))
        if int(counts.out.split()[1]) != ops:
            return f"check counts {counts.out!r}, and the report has {ops} outcomes"
    return None


def fault_of_late(runs):
    """Where `late` does not agree with `replay` on a session that both play, or `at` with the log that `late` writes."""
    replayed, late = runs.get("replay"), runs.get("late")
    if replayed and late and replayed.status == 0 and late.out != replayed.out:
        return "late and replay write different reports"
    for word, played in runs.items():
        if not late or late.status != 0 or not word.startswith("at "):
            continue
        lines = late.out.split(b"\n")
        size = int(next(it for it in lines if it.startswith(b"log ")).split()[1])
        number = int(word.split()[1])
        last = next(it for it in lines if it.startswith(b"final "))[len(b"final ") :]
        if (played.out == b"past %d\n" % size) != (size < number):
            return f"{word} wrote {played.out[:80]!r}, and the log has {size} steps"
        if size == number and played.out != b"at %d %s\n" % (number, last):
            return f"{word} does not write the last document"
    return None


def in_turn(lines, order):
    """Whether each client's lines stand in this order as they do in the file."""
    latest = {}
    for it in order:
        client = json.loads(lines[it - 1])["c"]
        if latest.get(client, 0) > it:
            return False
        latest[client] = it
    return True


def same_order(session, out, longest=LONGEST):
    """Whether an output that begins with an order is the report of the session in that order, as `replay` gives it."""
    first, _, report = out.partition(b"\n")
    order = [int(it) for it in first.split()[1:]]
    lines = session.split(b"\n")
    if first.split()[:1] != [b"order"] or sorted(order) != list(range(4, 4 + len(order))) or not in_turn(lines, order):
        return False
    played = play(["replay"], b"\n".join(lines[:3] + [lines[it - 1] for it in order]) + b"\n", longest=longest)
    return played.status == 0 and renumbered(played.out, order) == report


def renumbered(report, order):
    """Returns a report whose first lines tell outcomes, with these numbers in place of theirs, and sorted by them."""
    told = report.split(b"\n")
    outcomes = {number: it.partition(b" ")[2] for number, it in zip(order, told)}
    return b"\n".join([b"%d %s" % (it, outcomes[it]) for it in sorted(order)] + told[len(order) :])


def same_room_orders(session, out, longest=LONGEST):
    """Whether each room's part begins with an order of the room's lines, and is what `rooms` writes of them in that order."""
    lines = session.split(b"\n")
    names = json.loads(lines[0])
    parts = re.split(rb"^room ([a-z0-9]{1,16})\n", out, flags=re.M)[1:]
    if [it.decode() for it in parts[::2]] != names:
        return False
    of_room = {name: [] for name in names}
    for at in range(3 * len(names) + 1, len(lines) - (lines[-1] == b"")):
        of_room[json.loads(lines[at])["room"]].append(at + 1)
    for at, (name, part) in enumerate(zip(names, parts[1::2])):
        first, _, report = part.partition(b"\n")
        order = [int(it) for it in first.split()[1:]]
        if first.split()[:1] != [b"order"] or sorted(order) != of_room[name] or not in_turn(lines, order):
            return False
        head = [json.dumps([name]).encode(), *lines[3 * at + 1 : 3 * at + 4]]
        played = play(["rooms"], b"\n".join(head + [lines[it - 1] for it in order]) + b"\n", longest=longest)
        if played.status != 0 or renumbered(played.out.partition(b"\n")[2], order) != report:
            return False
    return True


# The words whose output shows orders, and whether an output is right for those that it shows.
ORDERED = {"run": same_order, "runrooms": same_room_orders}


def fault_of_order(word, session, played, longest=LONGEST):
    """What is wrong with a run whose output shows orders; None of other words, and of a refusal."""
    if word not in ORDERED or played.status != 0 or ORDERED[word](session, played.out, longest):
        return None
    return f"{word} wrote another report than without threads in the order {played.out[:80]!r}"


def is_answer(word, session, played, whole):
    """Whether status and output are those of an undisturbed run, `whole`; of a word with an order, those of the order shown."""
    if played.status != whole.status:
        return False
    if played.out == whole.out:
        return True
    return played.status == 0 and word in ORDERED and ORDERED[word](session, played.out)


def each(judge, tasks):
    """Judges all tasks, some side by side, and returns the faults that were told and the number of tasks."""
    faults, count = [], 0
    with multiprocessing.Pool(JOBS) as pool:
        for told in pool.imap_unordered(judge, tasks, chunksize=16):
            count += 1
            if told:
                faults.append(told)
                print(told, flush=True)
    return faults, count


def end(passed, failed):
    print(f"{passed} passed, {failed} failed")
    sys.exit(1 if failed else 0)
