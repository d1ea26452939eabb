#!/usr/bin/env python3
"""Times the live authority over a file: how many accepted letters a second, each answered before the next is sent, and GROUP of
them sent at once, beside sqlite3 with a commit for each, and beside a plain write and sync of each line on the same disk; how long
a file of many lines takes to be opened; and how many bytes a letter takes in it. Each figure is the median of RUNS, with the least
and the greatest.

    bench/kept.py [FOLDER]      the disk to time, that of a new folder in /var/tmp unless told

PM_LIVE names the program, crates/pm_live/out/pm_live unless told. RUNS is 7, LETTERS 1000 and GROUP 32 unless told, and LINES, the
files to be opened, are "10000 100000 1000000".
"""
import json, os, shutil, sqlite3, statistics, subprocess, sys, tempfile, time

TOP = os.path.dirname(os.path.dirname(os.path.abspath(__file__)))
LIVE = os.environ.get("PM_LIVE") or f"{TOP}/crates/pm_live/out/pm_live"
RUNS, LETTERS = int(os.environ.get("RUNS", 7)), int(os.environ.get("LETTERS", 1000))
GROUP = int(os.environ.get("GROUP", 32))
LINES = [int(it) for it in os.environ.get("LINES", "10000 100000 1000000").split()]
SCHEMA = '{"nodes":[{"name":"doc","content":"paragraph+"},{"name":"paragraph","content":"text*"},{"name":"text"}]}'
DOC = '{"type":"doc","content":[{"type":"paragraph","content":[{"type":"text","text":"ab"}]}]}'


def letter(version):
    step = {"stepType": "replace", "from": 1, "to": 1, "slice": {"content": [{"type": "text", "text": "x"}]}}
    return json.dumps({"op": "submit", "version": version, "clientID": "ann", "steps": [step]}, separators=(",", ":"))


class Live:
    def __init__(self, words, expects):
        self.process = subprocess.Popen([LIVE, *words], stdin=subprocess.PIPE, stdout=subprocess.PIPE)
        for _ in range(expects):
            self.process.stdout.readline()

    def tell(self, text):
        self.process.stdin.write(text.encode())
        self.process.stdin.flush()
        return self.process.stdout.readline()

    def close(self):
        self.process.stdin.close()
        return self.process.wait()


def by_live(words):
    live = Live(words, 0)
    live.tell(f"{SCHEMA}\n{DOC}\n")
    start = time.perf_counter()
    for version in range(LETTERS):
        if b"accepted" not in live.tell(letter(version) + "\n"):
            sys.exit("kept: a letter was not accepted")
    taken = time.perf_counter() - start
    live.close()
    return LETTERS / taken


def in_groups(words):
    """Sends a group in one write, and takes all its answers before the next."""
    live = Live(words, 0)
    live.tell(f"{SCHEMA}\n{DOC}\n")
    start = time.perf_counter()
    total = LETTERS // GROUP * GROUP
    for version in range(0, total, GROUP):
        live.process.stdin.write("".join(letter(version + i) + "\n" for i in range(GROUP)).encode())
        live.process.stdin.flush()
        if any(b"accepted" not in live.process.stdout.readline() for _ in range(GROUP)):
            sys.exit("kept: a letter was not accepted")
    taken = time.perf_counter() - start
    live.close()
    return total / taken


def by_sqlite(folder):
    base = sqlite3.connect(f"{folder}/base", isolation_level=None)
    base.execute("pragma journal_mode = wal")
    base.execute("pragma synchronous = full")
    base.execute("create table line (version integer primary key, text text)")
    start = time.perf_counter()
    for version in range(LETTERS):
        base.execute("insert into line values (?, ?)", (version, letter(version)))
    taken = time.perf_counter() - start
    base.close()
    return LETTERS / taken


def by_writes(folder):
    with open(f"{folder}/plain", "wb", buffering=0) as file:
        start = time.perf_counter()
        for version in range(LETTERS):
            file.write(letter(version).encode() + b"\n")
            os.fdatasync(file.fileno())
        return LETTERS / (time.perf_counter() - start)


def opening(folder, count):
    path = f"{folder}/long"
    with open(path, "w", encoding="utf-8") as file:
        file.write(f" {SCHEMA}\n {DOC}\n")
        file.writelines(f" {letter(version)}\n" for version in range(count))
        file.write("\n")
    start = time.perf_counter()
    live = Live(["open", path], 1)
    taken = time.perf_counter() - start
    live.close()
    return taken


def shown(what, unit, run):
    """Runs it in a new folder each time, and prints the median, the least and the greatest."""
    found = []
    for _ in range(RUNS):
        folder = tempfile.mkdtemp(dir=sys.argv[1] if len(sys.argv) > 1 else "/var/tmp")
        try:
            found.append(run(folder))
        finally:
            shutil.rmtree(folder)
    print(f"| {what} | {statistics.median(found):,.2f} {unit} | {min(found):,.2f} to {max(found):,.2f} |", flush=True)


def main():
    if not os.access(LIVE, os.X_OK):
        sys.exit(f"kept: there is no {LIVE}")
    shown("letters without a file", "a second", lambda folder: by_live([]))
    shown("letters in a file, one by one", "a second", lambda folder: by_live(["new", f"{folder}/kept"]))
    shown(f"letters without a file, {GROUP} at once", "a second", lambda folder: in_groups([]))
    shown(f"letters in a file, {GROUP} at once", "a second", lambda folder: in_groups(["new", f"{folder}/kept"]))
    shown("letters in sqlite3, a commit each", "a second", by_sqlite)
    shown("letters by a write and a sync each", "a second", by_writes)
    for count in LINES:
        shown(f"opening {count:,} letters", "seconds", lambda folder, count=count: opening(folder, count))
    print(f"| a letter in the file, at version 100,000 | {len(letter(100000)) + 2} bytes | |")


if __name__ == "__main__":
    main()
