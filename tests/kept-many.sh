#!/bin/sh
# Tests a house of many documents over a file (./pm live many new FILE, ./pm live many open FILE, ./pm live many pack OLD NEW): which
# lines are in the file, kill -9 in a loop, a full disk, two processes, files of other programs, and packing.
# The last line is `N passed, M failed`.
# usage: tests/kept-many.sh [COUNT]      COUNT kills, 50 if it is not given
# The variable PM_LIVE names another program than crates/pm_live/out/pm_live.

set -u

top=$(cd "$(dirname "$0")/.." && pwd) || exit 70
export PM_LIVE="${PM_LIVE:-$top/crates/pm_live/out/pm_live}"
[ -x "$PM_LIVE" ] || { echo "kept-many: left out, for there is no $PM_LIVE"; echo "0 passed, 0 failed"; exit; }
folder=$(mktemp -d) || exit 70
trap 'rm -rf "$folder"' EXIT

python3 - "$folder" "${1:-50}" <<'PY'
import json, os, random, resource, subprocess, sys, threading

live, folder, kills = os.environ["PM_LIVE"], sys.argv[1], int(sys.argv[2])
SCHEMA = {"nodes": [{"name": "doc", "content": "paragraph+"}, {"name": "paragraph", "content": "text*"}, {"name": "text"}]}
passed = failed = 0


def told(what, ok):
    global passed, failed
    passed, failed = passed + bool(ok), failed + (not ok)
    if not ok:
        print("failed:", what)


def line(op, **fields):
    return json.dumps({"op": op, **fields})


def letter(name, version, client="ann", text=None):
    step = {"stepType": "replace", "from": 1, "to": 1, "slice": {"content": [{"type": "text", "text": text or random.choice("xyz")}]}}
    return line("submit", **{"in": name}, version=version, clientID=client, steps=[step])


def start(word, path, limit=None):
    def at_start():
        if limit:
            resource.setrlimit(resource.RLIMIT_FSIZE, (limit, limit))
    pipe = subprocess.PIPE
    return subprocess.Popen([live, "many", word, path], stdin=pipe, stdout=pipe, stderr=pipe, preexec_fn=at_start, restore_signals=False)


def run(word, path, lines, **how):
    """Gives it all lines at once. Returns the answers, the status and what standard error has."""
    process = start(word, path, **how)
    out, errors = process.communicate("".join(it + "\n" for it in lines).encode())
    return out.decode().splitlines(), process.returncode, errors


def lines_of(path):
    with open(path, "rb") as file:
        data = file.read()
    lines, at = [], 0
    while data[at:at + 1] == b" ":
        end = data.index(b"\n", at)
        lines.append(data[at + 1:end].decode())
        at = end + 1
    return lines, at < len(data)


# ---- which lines are in the file

path = os.path.join(folder, "house")
named = line("schema", name="plain", schema=SCHEMA)
kept = [
    named,
    line("open", **{"in": "a"}, schema="plain", doc=None, version=41),
    line("open", **{"in": "b"}, schema="plain", doc=None),
    letter("a", 41),
    letter("b", 0),
    letter("a", 42),
    line("forget", **{"in": "a"}, version=42),
    line("close", **{"in": "b"}),
]
passing = [
    named,
    line("open", **{"in": "a"}, schema="plain", doc=None),
    line("open", **{"in": "c"}, schema="none", doc=None),
    line("submit", **{"in": "a"}, version=43, clientID="ann", steps=[]),
    letter("a", 7),
    line("forget", **{"in": "a"}, version=42),
    line("since", **{"in": "a"}, version=42),
    line("doc", **{"in": "a"}),
    line("close", **{"in": "b"}),
    line("documents"),
    line("statistics"),
    "no JSON",
]
answers, status, _ = run("new", path, kept + passing)
told("each line is answered", status == 0 and len(answers) == len(kept + passing))
told("the lines that change the house are in the file, and no others", lines_of(path) == (kept, True))
wanted = subprocess.run([live, "many"], input="".join(it + "\n" for it in kept + passing), capture_output=True, text=True).stdout
told("the answers are those without a file", "\n".join(answers) + "\n" == wanted)

answers, status, _ = run("open", path, [line("documents"), line("doc", **{"in": "a"})])
told("open says what the house has", status == 0 and json.loads(answers[0]) == {"documents": 1, "entries": 1, "schemas": 1, "tokens": 4})
row = {"from": 42, "in": "a", "schema": "plain", "size": 4, "version": 43}
told("the house stands where it stood", json.loads(answers[1]) == {"documents": [row]} and json.loads(answers[2])["version"] == 43)
told("opening changes nothing", lines_of(path) == (kept, True))

empty = os.path.join(folder, "empty-house")
answers, status, _ = run("new", empty, [line("statistics")])
told("a line that changes nothing begins no file", status == 0 and len(answers) == 1 and os.path.getsize(empty) == 0)

# ---- kill -9: what was told as accepted is in the file, in order, and at most one group more

for at_once in (False, True):
    right = True
    for _ in range(kills):
        process = start("open", path)
        process.stdout.readline()
        version = 41 + sum('"submit"' in it and '"in": "a"' in it for it in kept)
        batch = [letter("a", version + i) for i in range(60)]
        timer = threading.Timer(random.random() * 0.2, process.kill)
        timer.start()
        answers = []
        try:
            for it in ["\n".join(batch)] if at_once else batch:
                process.stdin.write(it.encode() + b"\n")
                process.stdin.flush()
                if not at_once:
                    answers.append(process.stdout.readline())
        except BrokenPipeError:
            pass
        timer.join()
        answers += process.stdout.read().splitlines(keepends=True)
        process.wait()
        count = sum(b"accepted" in answer and answer.endswith(b"\n") for answer in answers)
        found, closed = lines_of(path)
        more = len(found) - len(kept)
        right = right and closed and found == kept + batch[:more] and count <= more <= (60 if at_once else count + 1)
        kept = found
    told(f"{kills} kills lose nothing that was told, {'at once' if at_once else 'one by one'}", right)

# ---- a full disk

version = 41 + sum('"submit"' in it and '"in": "a"' in it for it in kept)
batch = [letter("a", version + i) for i in range(60)]
answers, status, errors = run("open", path, batch, limit=os.path.getsize(path) + 1000)
told("a full disk is told", status == 6 and errors == b"disk fault\n" and answers[-1] == '{"fault":"disk"}')
found, closed = lines_of(path)
more = len(found) - len(kept)
count = sum("accepted" in it for it in answers)
told("a full disk loses nothing that was told", closed and found == kept + batch[:more] and count <= more)

# ---- other processes and other files

process = start("open", path)
process.stdout.readline()
told("a second process is told busy", run("open", path, [])[1:] == (8, b"busy\n"))
process.stdin.close()
process.wait()
told("a missing file", run("open", os.path.join(folder, "none"), [])[1:] == (7, b"no file\n"))
told("a file that is there", run("new", path, [])[1:] == (7, b"the file is there\n"))
talk = os.path.join(folder, "talk")
subprocess.run([live, "new", talk], input=json.dumps(SCHEMA) + "\nnull\n", capture_output=True, text=True)
told("the file of a talk is none of a house", run("open", talk, [])[1:] == (9, b"line 1\n"))
done = subprocess.run([live, "open", path], input="", capture_output=True, text=True)
told("the file of a house is none of a talk", (done.returncode, done.stderr) == (9, "line 1\n"))
twice = b"".join(b" " + named.encode() + b"\n" for _ in range(2)) + b"\n"
for name, data in (("text", b"some text\n"), ("space", b" a\n b\n\n"), ("twice", twice)):
    other = os.path.join(folder, name)
    with open(other, "wb") as file:
        file.write(data)
    answers, status, _ = run("open", other, [named])
    with open(other, "rb") as file:
        told(f"a file of another program, {name}", status == 9 and not answers and file.read() == data)

# ---- packing


def pack(old, new, limit=None):
    """Returns what it writes, the status and what standard error has."""
    def at_start():
        if limit:
            resource.setrlimit(resource.RLIMIT_FSIZE, (limit, limit))
    words = [live, "many", "pack", old, new]
    done = subprocess.run(words, capture_output=True, stdin=subprocess.DEVNULL, preexec_fn=at_start, restore_signals=False)
    return done.stdout.decode(), done.returncode, done.stderr


def bytes_of(path):
    with open(path, "rb") as file:
        return file.read()


IN_A, IN_B, IN_C = {"in": "a"}, {"in": "b"}, {"in": "c"}
FLOATS = {**SCHEMA, "weight": 0.1, "most": 1e300}
old, packed = os.path.join(folder, "old"), os.path.join(folder, "packed")
lived = [
    line("schema", name="second", schema=FLOATS),
    named,
    line("open", **IN_A, schema="plain", doc=None, version=41, clientIDs=["zoe", 7]),
    line("open", **IN_B, schema="plain", doc=None),
    line("open", **IN_C, schema="second", doc=None, clientIDs=[]),
    letter("a", 41),
    letter("a", 42, 7),
    letter("b", 0),
    letter("a", 43, "a \u00e9\"\n\U0001f600"),
    letter("a", 44, text='"\u00e9\\\U0001f600'),
    line("forget", **IN_A, version=42),
    line("close", **IN_B),
    line("revert", **IN_A, clientID="ben", **{"from": 42}, count=1),
    letter("c", 0, -5),
]
asked = [
    line("documents"),
    line("statistics"),
    *(line("doc", **IN_A, version=version) for version in (41, 42, 44, 46)),
    line("doc", **IN_B),
    line("doc", **IN_C),
    line("since", **IN_A, version=42),
    line("since", **IN_A, version=41),
    line("since", **IN_C, version=0, most=1),
    line("authors", **IN_A, **{"from": 42}),
    line("map", **IN_A, **{"from": 42}, to=46, positions=[[1, 1], [1, -1]]),
    line("revert", **IN_A, clientID="zoe", **{"from": 43}, count=2),
    letter("a", 47, "zoe", "q"),
    line("since", **IN_A, version=42),
    line("open", **IN_B, schema="second", doc=None, version=3),
    line("schema", name="second", schema=FLOATS),
    line("schema", name="second", schema=SCHEMA),
    line("documents"),
]
answers, status, _ = run("new", old, lived)
told("each line changes the house", status == 0 and lines_of(old) == (lived, True))
data = bytes_of(old)
said, status, errors = pack(old, packed)
has = {"documents": 2, "entries": 5, "schemas": 2, "tokens": 12}
told("packing says what the house has", (status, errors) == (0, b"") and json.loads(said) == has)
told("the file that is packed is as it was", bytes_of(old) == data)
lines, closed = lines_of(packed)
ops = [json.loads(it)["op"] for it in lines]
wanted = ["schema", "schema", "open", *["submit"] * 4, "open", "submit"]
told("a closed document and forgotten steps are gone", closed and ops == wanted and not any('"in":"b"' in it for it in lines))
told("the IDs are there", json.loads(lines[2])["clientIDs"] == ["zoe", 7, "ann", "a \u00e9\"\n\U0001f600", "ben"])
again = os.path.join(folder, "again")
told("what is packed packs to the same", pack(packed, again) == (said, 0, b"") and bytes_of(again) == bytes_of(packed))
one, other = run("open", old, asked), run("open", packed, asked)
told("both houses answer the same", one == other and one[1] == 0 and len(one[0]) == len(asked) + 1)
told("none of the first answers is a fault", '"fault"' not in "".join(one[0][:15]))

data = bytes_of(packed)
told("packing into a file that is there", pack(old, packed) == ("", 7, b"the file is there\n") and bytes_of(packed) == data)
told("packing into the file itself", pack(old, old)[1] == 8)
blank = os.path.join(folder, "blank")
open(blank, "wb").close()
told("packing into an empty file", pack(again, blank)[1] == 0 and bytes_of(blank) == bytes_of(again))
missing = os.path.join(folder, "missing")
unmade = os.path.join(folder, "unmade")
told("packing a missing file", pack(missing, unmade) == ("", 7, b"no file\n") and not os.path.exists(unmade))
told("packing the file of a talk", pack(talk, os.path.join(folder, "p2")) == ("", 9, b"line 1\n"))
edited = os.path.join(folder, "edited")
with open(edited, "wb") as file:
    file.write(bytes_of(old).replace(b'"version": 42, "clientID": 7', b'"version": 43, "clientID": 7'))
data = bytes_of(edited)
said = pack(edited, os.path.join(folder, "p3"))
told("packing a file that was edited by hand", said == ("", 9, b"line 7\n") and bytes_of(edited) == data)
told("packing some text", pack(os.path.join(folder, "text"), os.path.join(folder, "p4")) == ("", 9, b"no file of pm_live\n"))
process = start("open", again)
process.stdout.readline()
told("packing a file that is in use", pack(again, os.path.join(folder, "p5")) == ("", 8, b"busy\n"))
told("packing into one that is in use", pack(packed, again) == ("", 8, b"NEW: busy\n"))
process.stdin.close()
process.wait()
small = os.path.join(folder, "small")
told("packing onto a full disk", pack(packed, small, limit=500) == ("", 6, b"NEW: disk fault\n"))
told("packing into no folder", pack(packed, os.path.join(folder, "none", "new"))[1] == 7)

big, tight = os.path.join(folder, "big"), os.path.join(folder, "tight")
letters = [letter("a", i, text="\x01" * 70_000) for i in range(3)]
grown = [named, line("open", **IN_A, schema="plain", doc=None), *letters, line("forget", **IN_A, version=3)]
answers, status, _ = run("new", big, grown)
told("a document that has grown lives", status == 0 and len(lines_of(big)[0]) == len(grown))
told("a document whose line would be too long is not packed", pack(big, tight) == ("", 10, b"not packed\n"))

print(f"{passed} passed, {failed} failed")
sys.exit(failed > 0)
PY
