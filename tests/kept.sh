#!/bin/sh
# Tests the live authority over a file (./pm live new FILE, ./pm live open FILE): kill -9 in a loop, a full disk, failed syncs (where
# there is strace), two processes, and files of other programs.
# The last line is `N passed, M failed`.
# usage: tests/kept.sh [COUNT]      COUNT kills, 100 if it is not given
# The variable PM_LIVE names another program than crates/pm_live/out/pm_live.

set -u

top=$(cd "$(dirname "$0")/.." && pwd) || exit 70
export PM_LIVE="${PM_LIVE:-$top/crates/pm_live/out/pm_live}"
[ -x "$PM_LIVE" ] || { echo "kept: left out, for there is no $PM_LIVE"; echo "0 passed, 0 failed"; exit; }
folder=$(mktemp -d) || exit 70
trap 'rm -rf "$folder"' EXIT

python3 - "$folder" "${1:-100}" <<'PY'
import json, os, random, resource, shutil, subprocess, sys, threading, time

live, folder, kills = os.environ["PM_LIVE"], sys.argv[1], int(sys.argv[2])
SCHEMA = '{"nodes":[{"name":"doc","content":"paragraph+"},{"name":"paragraph","content":"text*"},{"name":"text"}]}'
DOC = '{"type":"doc","content":[{"type":"paragraph","content":[{"type":"text","text":"ab"}]}]}'
passed = failed = 0


def told(what, ok):
    global passed, failed
    passed, failed = passed + bool(ok), failed + (not ok)
    if not ok:
        print("failed:", what)


def letter(version):
    step = {"stepType": "replace", "from": 1, "to": 1, "slice": {"content": [{"type": "text", "text": random.choice("xyz")}]}}
    return json.dumps({"op": "submit", "version": version, "clientID": "ann", "steps": [step]})


def start(words, limit=None, before=()):
    def at_start():
        if limit:
            resource.setrlimit(resource.RLIMIT_FSIZE, (limit, limit))
    pipe = subprocess.PIPE
    return subprocess.Popen([*before, live, *words], stdin=pipe, stdout=pipe, stderr=pipe, preexec_fn=at_start, restore_signals=False)


class Done:
    def __init__(self, process, text):
        self.stdout, self.stderr = process.communicate(text)
        self.returncode = process.returncode


def run(words, text="", **how):
    """Gives it all of the text at once."""
    return Done(start(words, **how), text.encode())


def step_by_step(process, lines):
    """Sends each line once the one before is answered, and gives the answers that came whole, the first of them without a line."""
    answers = [process.stdout.readline()]
    for line in lines:
        try:
            process.stdin.write(line.encode() + b"\n")
            process.stdin.flush()
        except BrokenPipeError:
            break
        answers.append(process.stdout.readline())
    return [answer for answer in answers if answer.endswith(b"\n")]


def ended(process):
    try:
        process.stdin.close()
    except BrokenPipeError:
        pass
    process.wait()
    return process.returncode


def lines_of(path):
    with open(path, "rb") as file:
        data = file.read()
    lines, at = [], 0
    while data[at:at + 1] == b" ":
        end = data.index(b"\n", at)
        lines.append(data[at + 1:end].decode())
        at = end + 1
    return lines, at < len(data)


path = os.path.join(folder, "kept")
done = run(["new", path], SCHEMA + "\n" + DOC + "\n")
told("new answers the size", done.returncode == 0 and json.loads(done.stdout) == {"size": 4, "version": 0})
told("lines 1 and 2 are in the file", lines_of(path) == ([SCHEMA, DOC], True))

# a submission of no steps changes nothing, and is not in the file
none = path + "-none"
done = run(["new", none], "\n".join([SCHEMA, DOC, '{"op":"submit","version":0,"clientID":"ann","steps":[]}']) + "\n")
told("no steps are accepted", done.stdout.endswith(b'{"accepted":{"count":0,"from":0}}\n'))
told("no steps are not in the file", lines_of(none) == ([SCHEMA, DOC], True))

# a kill while a file is begun leaves it with both lines or with none, and with both where they were answered
right = True
for i in range(kills):
    begun = os.path.join(folder, f"begun{i}")
    process = subprocess.Popen([live, "new", begun], stdin=subprocess.PIPE, stdout=subprocess.PIPE)
    process.stdin.write((SCHEMA + "\n" + DOC + "\n").encode())
    process.stdin.flush()
    time.sleep(random.random() * 0.03)
    process.kill()
    answer = process.stdout.read()
    process.wait()
    found = lines_of(begun)[0] if os.path.exists(begun) else []
    right = right and found in ([], [SCHEMA, DOC]) and (found or not answer)
told(f"{kills} kills in the midst of new leave both lines or none", right)

# What was told as accepted before a kill is in the file, in order. Of lines that are sent one by one at most one more is; of lines
# that are sent at once, which come into the file together, maybe all.
kept = [SCHEMA, DOC]
for at_once in (False, True):
    right = True
    for _ in range(kills):
        process = start(["open", path])
        version = len(kept) - 2
        batch = [letter(version + i) for i in range(60)]
        timer = threading.Timer(random.random() * 0.2, process.kill)
        timer.start()
        if at_once:
            try:
                process.stdin.write(("\n".join(batch) + "\n").encode())
                process.stdin.flush()
            except BrokenPipeError:
                pass
            timer.join()
            answers = process.stdout.read().splitlines(keepends=True)
        else:
            answers = step_by_step(process, batch)
            timer.join()
        process.wait()
        count = sum(b"accepted" in answer and answer.endswith(b"\n") for answer in answers)
        found, closed = lines_of(path)
        more = len(found) - len(kept)
        right = right and closed and found == kept + batch[:more] and count <= more <= (60 if at_once else count + 1)
        kept = found
    told(f"{kills} kills lose nothing that was told, {'at once' if at_once else 'one by one'}", right)

# a disk that is full, as a limit of the file's length
for at_once in (False, True):
    size, version = os.path.getsize(path), len(kept) - 2
    batch = [letter(version + i) for i in range(60)]
    process = start(["open", path], limit=size + 1000)
    if at_once:
        answers = process.communicate(("\n".join(batch) + "\n").encode())[0].splitlines()
    else:
        answers = [answer.strip() for answer in step_by_step(process, batch)]
    told("a full disk is told", answers[-1:] == [b'{"fault":"disk"}'] and ended(process) == 6)
    count = sum(b"accepted" in answer for answer in answers)
    found, closed = lines_of(path)
    more = len(found) - len(kept)
    most = 60 if at_once else count + 1
    told("a full disk loses nothing that was told", closed and found == kept + batch[:more] and count <= more <= most)
    kept = found

# a sync that fails: each of those at opening; each of those of three lines one by one; and the two of three lines at once, of which
# the file has all or none then
right = True
calls = [("fsync", i, 0) for i in range(1, 5)] + [("fdatasync", i, 1) for i in range(1, 7)] + [("fdatasync", i, 3) for i in range(1, 3)]
for call, when, size in calls if shutil.which("strace") else []:
    version = len(kept) - 2
    batch = [letter(version + i) for i in range(3)]
    process = start(["open", path], before=["strace", "-f", "-qq", "-o", "/dev/null", "-e", f"inject={call}:error=EIO:when={when}"])
    if size == 3:
        answers = process.communicate(("\n".join(batch) + "\n").encode())[0].splitlines()
    else:
        answers = step_by_step(process, batch)
    count = sum(b"accepted" in answer for answer in answers)
    found, closed = lines_of(path)
    more = len(found) - len(kept)
    right = right and closed and found == kept + batch[:more] and more in ((0, 3) if size == 3 else (count, count + 1))
    right = right and count < 3 and ended(process) == (7 if call == "fsync" else 6)
    kept = found
told("a failed sync loses nothing that was told", right)

# a second process
process = start(["open", path])
process.stdout.readline()
done = run(["open", path])
told("a second process is told busy", done.returncode == 8 and done.stderr == b"busy\n")
process.stdin.close()
process.wait()

# other files
done = run(["open", os.path.join(folder, "none")])
told("a missing file", done.returncode == 7 and done.stderr == b"no file\n")
done = run(["new", path])
told("a file that is there", done.returncode == 7 and done.stderr == b"the file is there\n")
for name, data in (("text", b"some text\n"), ("space", b" a\n b\n\n"), ("empty", b""), ("half", b" " + SCHEMA.encode() + b"\n\n")):
    other = os.path.join(folder, name)
    with open(other, "wb") as file:
        file.write(data)
    done = run(["open", other], letter(0) + "\n")
    with open(other, "rb") as file:
        told(f"a file of another program, {name}", done.returncode == 9 and not done.stdout and file.read() == data)

print(f"{passed} passed, {failed} failed")
sys.exit(failed > 0)
PY
