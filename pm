#!/usr/bin/env python3
"""Builds a program where it is not built, and runs it with the given words: pm_live for the word `live`, else pm_program.
Or builds the C library of pm_c and bindings/c.

Each crate is proved in a room of its own: a copy of the crates that it stands on, under out/rooms at the top. Commands of
rt in one tree would wait for each other, and in rooms they run side by side. What rt makes of a crate comes back to
the crate's own out/ however its proof ends, so an interrupted build goes on where it stopped.
"""
import fcntl, glob, os, re, shutil, signal, subprocess, sys, tempfile, time

TOP = os.path.dirname(os.path.abspath(__file__))
ROOMS = f"{TOP}/out/rooms"
# Each program, and how it ends, and what it says, where it is run with no words and no input.
PROGRAMS = {"pm_program": (2, "^usage: "), "pm_live": (1, r'^\{"fault":2,"line":1\}$')}
# The static library, whose calls bindings/c gives their names in C.
LIBRARY = "pm_c"
PARTS = ("src", "specs", "proofs")
# The memory, in bytes, that one more check is likely to take.
EACH = 3_000_000_000
HELP = """usage: ./pm WORDS < SESSION      builds the program if it is missing or old, and runs it
       ./pm live                 builds the live authority if it is missing or old, and runs it
       ./pm live new FILE        does so, and keeps what it accepts in FILE, which is missing or empty
       ./pm live open FILE       does so behind the lines of FILE
       ./pm live many            does so for many documents, in memory alone
       ./pm live many new FILE   does so, and keeps what it accepts in FILE; open FILE goes on behind its lines
       ./pm live many pack OLD NEW
                                 writes the house of the file OLD into NEW, without what was closed or let go
       ./pm live work N ..       does what live and the words behind N do, but that the steps of one submission go over
                                 N tokens at most
       ./pm build [live]         builds the one or the other, and tells how far the build is
       ./pm try WORDS < SESSION  runs the words at once, with nothing proved; so does ./pm try live
       ./pm try build [live]     builds the one or the other with nothing proved, and prints its path
       ./pm lib                  builds the C library below out/: lib/libgezhufet.a, lib/libgezhufet.so, include/gezhufet.h
       ./pm lib --prefix DIR     builds it, and installs it below DIR with a file for pkg-config
       ./pm try lib              builds it with nothing proved below out/unproved/
       ./pm wasm                 builds the engine as a WebAssembly module, out/gezhufet.wasm, with Debian's binaryen;
                                 ./pm try wasm does it with nothing proved. bindings/js is the JavaScript package over it

words
  check       write how many op lines the session has and how large its first document is
  replay      play the session with its lines in file order, and write its report
  select      play the session as `replay` does, and write which of its lines undid an event that lies apart, and the
              report
  run         play the session with a thread for each client, and write the order of its lines and its report
  late        play the session, which clients may enter late, with its lines in file order, and write its report
  at VERSION  play the session as `late` does, and write the document after the first VERSION steps of its log
  rooms       play the rooms of a file of many with its lines in file order, and write each room's report
  runrooms    play the rooms of a file of many with a thread for each person, and write for each room the order of its
              lines and its report
  gen CLIENTS LINES NUMBER
              make a session from the number, play it as `replay` does, and write a summary; nothing is read
  live        read a schema, a document and then messages, a line each, and write an answer to each; no more input is
              asked for while a whole line has none

statuses
  0  done: the whole output was written
  1  the input is no session of the word; the output is the line `refused LINE CODE`
  2  the words are none of the forms above
  3  a read failed; nothing was written
  4  a write failed; a front of the output was written
  5  no memory; nothing was written
  Of live: 0 all lines were answered, to the end of input; 1 line 1 or 2 is faulty or missing, which the line written
  last says; 3 and 4 a read or a write failed, after the answers written; 5 no memory to begin with; 6 a call of the
  disk failed; 7 FILE is missing, there already or may not be taken; 8 another process has it open; 9 it is no file of
  live, or its lines are not accepted; 10 the house was not packed. With 2 to 10 standard error says which.
  70 the program or the library could not be built
  127 the toolchain is missing

A build proves the crates that the program stands on, as many side by side as there are processors and memory. The
first time that takes half an hour or more on four processors; the bar tells how many minutes are left. PM_JOBS=N
does N at a time. `try` takes about a minute.
The session file and the report are described in docs/use/FORMATS.md, the lines of live in docs/use/LIVE.md, and examples/ has
sessions to try.
Other options: --help, --version."""


def say(text):
    print(f"pm: {text}", file=sys.stderr, flush=True)


def need_toolchain():
    if not shutil.which("rt"):
        say("the command rt of the Rattle toolchain is not on the PATH; install the toolchain, then try again")
        sys.exit(127)


def unproved(name):
    """Builds a program or the static library with nothing proved, and returns the path."""
    say("nothing is proved in this build; it takes some minutes")
    built = subprocess.run([f"{TOP}/tools/unproved", name], stdout=subprocess.PIPE, text=True, check=False)
    if built.returncode:
        sys.exit(built.returncode)
    return built.stdout.strip()


def made(program):
    file = f"lib{program}.a" if program == LIBRARY else program
    return f"{TOP}/crates/{program}/out/{file}"


def crates_below(program):
    """Returns the crates that a program stands on and the program, lowest first, each with its own list of crates."""
    with open(f"{TOP}/crates.txt", encoding="utf-8") as file:
        rows = [line.partition("#")[0].partition(":") for line in file]
    listed = {head.split()[0]: (head + ":" + deps).strip() for head, _, deps in rows if head.strip()}
    uses = {name: [it for it in line.partition(":")[2].split() if it in listed] for name, line in listed.items()}
    found = {}

    def visit(name):
        if name not in found:
            for it in uses[name]:
                visit(it)
            found[name] = {it: listed[it] for dep in uses[name] for it in [*found[dep]]} | {name: listed[name]}

    visit(program)
    return found


def sources(name):
    for part in PARTS:
        for folder, _, files in os.walk(f"{TOP}/crates/{name}/{part}"):
            yield from (f"{folder}/{it}" for it in files)


def is_made(program):
    return os.access(made(program), os.R_OK if program == LIBRARY else os.X_OK)


def is_fresh(program):
    if not is_made(program):
        return False
    files = [f"{TOP}/crates.txt", *(file for name in crates_below(program) for file in sources(name))]
    return max(map(os.path.getmtime, files)) < os.path.getmtime(made(program))


def linked(one, other):
    try:
        os.link(one, other)
    except OSError:
        shutil.copy2(one, other)


def enter(name, below):
    """Makes the crate's room, moves the crate's out/ there, and returns the crate's folder in it."""
    room = f"{ROOMS}/{name}"
    os.makedirs(f"{room}/crates")
    with open(f"{room}/crates.txt", "w", encoding="utf-8") as file:
        file.write("\n".join(below.values()) + "\n")
    for it in below:
        for part in (*PARTS, *["out/rlib"] * (it != name)):
            if os.path.isdir(f"{TOP}/crates/{it}/{part}"):
                shutil.copytree(f"{TOP}/crates/{it}/{part}", f"{room}/crates/{it}/{part}", copy_function=linked)
    inside = f"{room}/crates/{name}"
    if os.path.isdir(f"{TOP}/crates/{name}/out"):
        os.rename(f"{TOP}/crates/{name}/out", f"{inside}/out")
    return inside


def leave(name):
    """Moves the crate's out/ back from its room, and removes the room."""
    made, home = f"{ROOMS}/{name}/crates/{name}/out", f"{TOP}/crates/{name}/out"
    if os.path.isdir(made) and not os.path.exists(home):
        os.rename(made, home)
    shutil.rmtree(f"{ROOMS}/{name}", ignore_errors=True)


def loop_seconds():
    """The processor seconds that a fixed loop takes here, the least of three runs. It is that of tools/gate-cost."""
    took = []
    for _ in range(3):
        start, number = time.process_time(), 0
        for it in range(2_000_000):
            number = (number * 31 + it) % 1_000_003
        took.append(time.process_time() - start)
    return min(took)


def costs(sizes):
    """Returns the processor minutes that each crate is likely to take here, by the table of GATE.md and its loop.

    A crate without a row is taken by its size. Without a table each byte of a source counts alike.
    """
    text = ""
    for page in glob.glob(f"{TOP}/docs/**/GATE.md", recursive=True):
        with open(page, encoding="utf-8") as file:
            text = file.read()
    rows = re.findall(r"^\| (\w+) \| ([\d.]+)\*? \|", text, re.M)
    told = {name: float(minutes) for name, minutes in rows if name in sizes}
    loop = re.search(r"^The loop takes ([\d.]+) s", text, re.M)
    speed = loop_seconds() / float(loop[1]) if loop else 1
    each = sum(told.values()) / sum(sizes[it] for it in told) if told else 1e-4
    return {it: speed * told.get(it, each * size) for it, size in sizes.items()}


class Build:
    def __init__(self, program, below):
        self.program = program
        self.below, self.left, self.done, self.running, self.failed = below, [*below], [], {}, []
        self.cost = costs({it: sum(map(os.path.getsize, sources(it))) for it in below})
        self.start, self.lanes = time.time(), self.width()
        self.begun, self.spent, self.planned = {}, 0, 0
        self.is_bar = sys.stderr.isatty()

    def width(self):
        """Returns how many checks run at a time."""
        given = os.environ.get("PM_JOBS", "")
        with open("/proc/meminfo", encoding="utf-8") as file:
            free = 1024 * int(re.search(r"MemAvailable:\s+(\d+)", file.read())[1])
        return int(given) if given.isdigit() else max(min(len(os.sched_getaffinity(0)), free // EACH), 1)

    def chains(self):
        """Returns for each crate that is not done the minutes of the longest chain of crates that begins with it."""
        found = {}
        # `below` has the lowest crates first, so that from its end on those above are known.
        for name in reversed([it for it in self.below if it in self.left or it in self.running]):
            above = [found[it] for it in found if name in self.below[it]]
            found[name] = self.cost[name] + max(above, default=0)
        return found

    def minutes_left(self):
        """Returns how many minutes the build has to go: as long as the longest chain, or as the work for all its lanes.

        What was planned for the crates that were proved in this build, and what they took, corrects the plan.
        """
        done = {it: (time.time() - self.begun[it]) * jobs / 60 for it, (_, _, jobs) in self.running.items()}
        pace = self.spent / self.planned if self.planned > 5 else 1
        done = {it: min(took / pace, 0.9 * self.cost[it]) for it, took in done.items()}
        work = sum(self.cost[it] - done.get(it, 0) for it in [*self.left, *self.running])
        chain = max((length - done.get(it, 0) for it, length in self.chains().items()), default=0)
        # The crates of the longest chain have two lanes where there are more.
        return pace * max(chain / min(2, max(self.lanes - 1, 1)), work / self.lanes)

    def begin(self):
        """Starts what can start, first the crates with the longest chain above them.

        A crate gets the processors that no other waits for.
        """
        ready = [it for it in self.left if all(dep == it or dep in self.done for dep in self.below[it])]
        chains = self.chains()
        ready.sort(key=chains.get, reverse=True)
        for at, name in enumerate(ready):
            idle = self.lanes - sum(jobs for _, _, jobs in self.running.values())
            if idle < 1 or self.failed:
                return
            jobs = min(4, max(1, idle // (len(ready) - at)))
            # The longest chain decides when the build ends, so its crate gets two at least.
            if self.lanes > 2 and all(chains[name] >= chains[it] for it in self.running):
                jobs = max(jobs, 2)
            inside = enter(name, self.below[name])
            verb = "run" if name in PROGRAMS else "lib"
            log = open(f"{ROOMS}/{name}/log", "w+", encoding="utf-8", errors="replace")
            how = {"cwd": inside, "stdin": subprocess.DEVNULL, "stdout": log, "stderr": log}
            self.left.remove(name)
            self.begun[name] = time.time()
            self.running[name] = subprocess.Popen(["rt", verb, "--jobs", str(jobs)], **how), log, jobs

    def end(self, name):
        ran, log, jobs = self.running.pop(name)
        took = (time.time() - self.begun[name]) * jobs / 60
        # What was proved before goes fast, and tells nothing of the pace.
        if took > self.cost[name] / 10:
            self.spent, self.planned = self.spent + took, self.planned + self.cost[name]
        log.seek(0)
        said = log.read().replace(f"{ROOMS}/{name}", TOP)
        log.close()
        leave(name)
        status, text = PROGRAMS.get(name, (0, ""))
        has_run = ran.returncode == status and is_made(name) and re.search(text, said, re.M)
        if has_run if name == self.program else ran.returncode == 0:
            self.done.append(name)
            self.show(name)
        else:
            self.failed.append(name)
            self.clear()
            lines = [it for it in said.splitlines() if not re.match(r"statements |fn \S+: proved$", it)]
            print("\n".join(lines[-60:]), file=sys.stderr)
            say(f"{name} is not proved: its message is above. The crates that are under way are finished first")

    def clear(self):
        if self.is_bar:
            print("\r\033[K", end="", file=sys.stderr)

    def show(self, proved=None):
        done, to_go, took = len(self.done), len(self.left) + len(self.running), int(time.time() - self.start)
        far = f"{done} of {len(self.below)} crates done, {to_go} to go, {took // 60} min {took % 60:02} s"
        if to_go:
            far += f", some {max(round(self.minutes_left()), 1)} min left"
        if self.is_bar:
            full = 24 * done // len(self.below)
            wide = shutil.get_terminal_size().columns - 1
            line = f"pm: [{'#' * full}{'.' * (24 - full)}] {far}: {' '.join(self.running)}"
            print(f"\r\033[K{line[:wide]}", end="", file=sys.stderr, flush=True)
        elif proved:
            say(f"{far}: {proved}")

    def run(self):
        try:
            while (self.left or self.running) and not (self.failed and not self.running):
                self.begin()
                self.show()
                time.sleep(0.3)
                for name in [it for it, (ran, _, _) in self.running.items() if ran.poll() is not None]:
                    self.end(name)
        finally:
            self.clear()
            for ran, _, _ in self.running.values():
                ran.terminate()
                ran.wait()
            for name in self.below:
                leave(name)
            shutil.rmtree(ROOMS, ignore_errors=True)
        return not self.failed


def build(program):
    """Builds a program. Only one build works in a tree at a time, and rt waits for it where it locks the same folder."""
    need_toolchain()
    with_lock = os.open(f"{TOP}/crates/pm_program", os.O_RDONLY)
    try:
        fcntl.flock(with_lock, fcntl.LOCK_EX | fcntl.LOCK_NB)
    except BlockingIOError:
        say("waiting for another build in this folder to end")
        fcntl.flock(with_lock, fcntl.LOCK_EX)
    below = crates_below(program)
    # A build that was killed has left its rooms.
    for name in below:
        leave(name)
    work = Build(program, below)
    say(f"proving {len(below)} crates, {work.lanes} at a time; what is proved already goes fast")
    if not work.run():
        say("the library could not be built" if program == LIBRARY else "the program could not be built")
        sys.exit(70)
    os.utime(made(program))
    took = int(time.time() - work.start)
    say(f"built in {took // 60} min {took % 60:02} s")
    os.close(with_lock)


def chosen(words):
    """Returns the program that the words call, and the words for it."""
    return ("pm_live", words[1:]) if words[:1] == ["live"] else ("pm_program", words)


def run_tool(*words, cwd=None):
    """Runs a tool of the C compiler's, and ends where it is missing or fails."""
    if not shutil.which(words[0]):
        say(f"{words[0]} is missing, which the library is linked with")
        sys.exit(70)
    if subprocess.run(words, cwd=cwd, check=False).returncode:
        say("the library could not be linked")
        sys.exit(70)


def heap():
    """Returns the toolchain's library by which Rattle's code calls malloc and free."""
    page = subprocess.run(["rt", "doc"], check=True, capture_output=True, text=True).stdout.strip()
    return f"{os.path.dirname(page)}/c/liblibc_c.a"


def link(library, prefix):
    """Links the static library, the C file over it and the heap into the libraries below the prefix."""
    c, version = f"{TOP}/bindings/c", version_of_tree()
    lib, include = f"{prefix}/lib", f"{prefix}/include"
    os.makedirs(f"{lib}/pkgconfig", exist_ok=True)
    os.makedirs(include, exist_ok=True)
    shutil.copy(f"{c}/include/gezhufet.h", include)
    compiler = os.environ.get("CC", "cc")
    with tempfile.TemporaryDirectory() as room:
        run_tool(compiler, "-std=c99", "-O2", "-fPIC", "-I", include, "-c", f"{c}/gezhufet.c", "-o", f"{room}/gezhufet.o")
        for at, archive in enumerate((library, heap())):
            os.mkdir(f"{room}/{at}")
            run_tool("ar", "x", os.path.realpath(archive), cwd=f"{room}/{at}")
        objects = [f"{folder}/{it}" for folder, _, files in os.walk(room) for it in sorted(files)]
        static = f"{room}/libgezhufet.a"
        run_tool("ar", "rcs", static, *objects)
        shared = f"{room}/libgezhufet.so.{version}"
        names = f"-Wl,--version-script={c}/gezhufet.map"
        run_tool(compiler, "-shared", "-Wl,-soname,libgezhufet.so", names, "-o", shared, *objects)
        shutil.copy(static, lib)
        shutil.copy(shared, f"{lib}/libgezhufet.so.{version}")
    with open(f"{c}/gezhufet.pc.in", encoding="utf-8") as file:
        text = file.read().replace("@PREFIX@", os.path.abspath(prefix)).replace("@VERSION@", version)
    with open(f"{lib}/pkgconfig/gezhufet.pc", "w", encoding="utf-8") as file:
        file.write(text)
    if os.path.lexists(f"{lib}/libgezhufet.so"):
        os.remove(f"{lib}/libgezhufet.so")
    os.symlink(f"libgezhufet.so.{version}", f"{lib}/libgezhufet.so")
    say(f"the library is below {prefix}")


def version_of_tree():
    with open(f"{TOP}/VERSION", encoding="utf-8") as file:
        return file.read().strip()


def main(words):
    if words == ["--help"]:
        print(HELP)
    elif words == ["--version"]:
        need_toolchain()
        print(f"gezhufet {version_of_tree()}", flush=True)
        subprocess.run(["rt", "version"], check=False)
    elif words in (["wasm"], ["try", "wasm"]):
        need_toolchain()
        os.execv(f"{TOP}/tools/wasm/build", ["build", *["--try"] * (words[0] == "try")])
    elif words == ["try", "lib"]:
        need_toolchain()
        link(unproved(LIBRARY), f"{TOP}/out/unproved")
    elif words in (["try", "build"], ["try", "build", "live"]):
        need_toolchain()
        print(unproved(chosen(words[2:])[0]))
    elif words[:1] == ["try"]:
        need_toolchain()
        program, given = chosen(words[1:])
        say("nothing is proved in this run; it takes about a minute")
        os.chdir(f"{TOP}/crates/{program}")
        os.execvp("rt", ["rt", "try", "--", *given])
    elif words in (["build"], ["build", "live"]):
        program, _ = chosen(words[1:])
        say("the program is built") if is_fresh(program) else build(program)
    elif words[:1] == ["lib"] and (len(words) == 1 or len(words) == 3 and words[1] == "--prefix"):
        need_toolchain()
        if not is_fresh(LIBRARY):
            build(LIBRARY)
        link(made(LIBRARY), words[2] if len(words) == 3 else f"{TOP}/out")
    else:
        program, given = chosen(words)
        if not is_fresh(program):
            build(program)
        os.execv(made(program), [made(program), *given])


if __name__ == "__main__":
    signal.signal(signal.SIGTERM, lambda *_: sys.exit(143))
    try:
        main(sys.argv[1:])
    except KeyboardInterrupt:
        sys.exit(130)
