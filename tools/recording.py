"""Records the LLVM module that the toolchain makes of a crate, for tools/wasm/build and tools/unproved.

rt hands its clang one module for x86-64. A view of the toolchain, whose clang is recording-clang.sh, keeps that module.
"""
import os, re, shutil, subprocess, sys

TOP = os.path.dirname(os.path.dirname(os.path.abspath(__file__)))
PARTS = ("src", "specs", "proofs")
# What is made with nothing proved, and from what.
UNPROVED = f"{TOP}/out/unproved"
LIBRARY = "pm_c"


def say(text):
    print(f"pm: {text}", file=sys.stderr, flush=True)


def fail(text, status=70):
    say(text)
    sys.exit(status)


def run(words, **how):
    if subprocess.run(words, **how, check=False).returncode:
        fail(f"{os.path.basename(words[0])} failed; its message is above")


def kit():
    """Returns the folder of the toolchain."""
    rt = shutil.which("rt") or fail("the command rt of the Rattle toolchain is not on the PATH; install the toolchain", 127)
    return os.path.dirname(os.path.dirname(os.path.realpath(rt)))


def clang(words):
    run([f"{kit()}/toolchain/bin/clang", *words])


def crates_below(name):
    """Returns the lines of crates.txt of a crate and of those that it stands on: each head, and its list."""
    with open(f"{TOP}/crates.txt", encoding="utf-8") as file:
        rows = [line.partition("#")[0].partition(":") for line in file]
    lines = {head.split()[0]: (head.strip(), deps.split()) for head, _, deps in rows if head.strip()}
    found, todo = {}, [name]
    while todo:
        it = todo.pop()
        if it in lines and it not in found:
            found[it] = lines[it]
            todo += lines[it][1]
    return found


def newest(folders):
    """Returns when the newest file of the folders, or crates.txt, was changed."""
    files = [f"{at}/{it}" for folder in folders for at, _, names in os.walk(folder) for it in names]
    return max(map(os.path.getmtime, [f"{TOP}/crates.txt", *files]))


def sources(name):
    return [f"{TOP}/crates/{it}/{part}" for it in crates_below(name) for part in PARTS]


# ---- the view


def view(to, record, end="none"):
    """Makes a view of the toolchain whose clang keeps the module that it is given in the folder `record`, which is empty then, and
    returns its rt. At the word `end` clang ends."""
    real = kit()
    for folder in (to, record):
        shutil.rmtree(folder, ignore_errors=True)
    os.makedirs(record)
    for folder in ("bin", "toolchain/bin"):
        os.makedirs(f"{to}/{folder}")
        for it in os.listdir(f"{real}/{folder}"):
            os.symlink(f"{real}/{folder}/{it}", f"{to}/{folder}/{it}")
    for it in {*os.listdir(real)} - {"bin", "toolchain"}:
        os.symlink(f"{real}/{it}", f"{to}/{it}")
    os.symlink(f"{real}/toolchain/lib", f"{to}/toolchain/lib")
    # rt takes the toolchain that its own file stands in.
    for it in ("rt", "rtlib.py"):
        os.remove(f"{to}/bin/{it}")
        shutil.copy2(f"{real}/bin/{it}", f"{to}/bin/{it}")
    with open(f"{TOP}/tools/recording-clang.sh", encoding="utf-8") as file:
        text = file.read()
    for word, to_write in (("CLANG", f"{real}/toolchain/bin/clang"), ("RECORD", record), ("END", end)):
        text = text.replace(f"@{word}@", to_write)
    os.remove(f"{to}/toolchain/bin/clang")
    with open(f"{to}/toolchain/bin/clang", "w", encoding="utf-8", opener=lambda *it: os.open(*it, 0o755)) as file:
        file.write(text)
    return f"{to}/bin/rt"


# ---- what rt tries


# Of a program only what its `main` reaches is compiled, so that of the library's trial makes each call.
MAIN = """
/// Makes each call once.
fn main(rt: HostRuntime) {
    let alloc = rt.alloc();
    let mut talk = handle::Handle::empty(alloc);
    if exports::pm_c_open_client(alloc, &mut talk) {
        exports::pm_c_close(std::mem::replace(&mut talk, handle::Handle::empty(alloc)));
    }
    if exports::pm_c_open_house(alloc, &mut talk) {
        exports::pm_c_close(std::mem::replace(&mut talk, handle::Handle::empty(alloc)));
    }
    if exports::pm_c_open_authority(alloc, &mut talk) {
        let of = std::mem::replace(&mut talk, handle::Handle::empty(alloc));
        let size = exports::pm_c_tell(alloc, of, &mut talk, "{}".as_bytes());
        let of = std::mem::replace(&mut talk, handle::Handle::empty(alloc));
        let mut into = [0u8; 1];
        let copied = exports::pm_c_answer(of, &mut talk, &mut into);
        let of = std::mem::replace(&mut talk, handle::Handle::empty(alloc));
        let is_open = exports::pm_c_is_open(of, &mut talk);
        exports::pm_c_close(talk);
        println!(rt; "{size} {copied} {is_open} {}", exports::pm_c_version()).ok();
    }
}
"""
EMPTY = """
impl Handle {
    /// A handle that holds nothing.
    pub(crate) fn empty(alloc: Global) -> Handle {
        Handle {
            at: std::ptr::null_mut(),
            alloc,
        }
    }
}
"""


def trial(name, to):
    """Copies the sources of a crate and of what it stands on, and returns the crate's folder. The library is a program there, since rt
    tries programs."""
    shutil.rmtree(to, ignore_errors=True)
    below = crates_below(name)
    for it in below:
        for part in PARTS:
            if os.path.isdir(f"{TOP}/crates/{it}/{part}"):
                shutil.copytree(f"{TOP}/crates/{it}/{part}", f"{to}/crates/{it}/{part}")
    with open(f"{to}/crates.txt", "w", encoding="utf-8") as file:
        for it, (head, deps) in below.items():
            file.write(f"{it if it == LIBRARY else head}: {' '.join(deps)}\n")
    src = f"{to}/crates/{name}/src"
    if name == LIBRARY:
        os.rename(f"{src}/lib.rt", f"{src}/main.rt")
        for part, more in (("main", MAIN), ("handle", EMPTY)):
            with open(f"{src}/{part}.rt", "a", encoding="utf-8") as file:
                file.write(more)
    return f"{to}/crates/{name}"


def unproved(name):
    """Returns the file of the module of a crate with nothing proved, recorded anew where a source is newer."""
    at = f"{UNPROVED}/{name}"
    made = f"{at}/record/module.bc"
    if os.path.isfile(made) and os.path.getmtime(made) > max(newest(sources(name)), os.path.getmtime(__file__)):
        return made
    # What is tried is compiled with the address sanitizer, for which there is no need here.
    rt = view(f"{at}/kit", f"{at}/record", "-fsanitize=address")
    try:
        how = {"cwd": trial(name, f"{at}/trial"), "stdin": subprocess.DEVNULL, "stdout": subprocess.DEVNULL, "stderr": subprocess.PIPE}
        tried = subprocess.run([rt, "try"], **how, check=False)
    finally:
        # `rt ci` refuses a tree with a second crates.txt, or with sources beside crates/.
        shutil.rmtree(f"{at}/trial", ignore_errors=True)
    if not os.path.isfile(made):
        sys.stderr.buffer.write(tried.stderr)
        fail(f"no module of {name} was recorded")
    return made


def printed(module, to):
    """Returns the text of a module, by way of a file. Where it is the library's trial, the exports get their names, and its `main` is
    nothing that anyone calls."""
    clang(["-x", "ir", "-S", "-emit-llvm", "-Xclang", "-disable-llvm-passes", "-o", to, module])
    with open(to, encoding="utf-8") as file:
        text = file.read()
    # A proved library's module has its exports by their names.
    if re.search(rf"(?m)^define [^\n]*@{LIBRARY}_\w+\(", text):
        return text
    text, count = re.subn(rf'@"{LIBRARY}::exports::({LIBRARY}_\w+)"', r"@\1", text)
    if not count:
        return text
    text = re.sub(rf"(?m)^define internal (.*@{LIBRARY}_\w+\()", r"define \1", text)
    return re.sub(r"(?m)^define (.*@main\()", r"define internal \1", text)
