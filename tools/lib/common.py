"""What several scripts of this folder need: the repository's crates, its release, the kit, the machine."""
import hashlib
import importlib.machinery
import importlib.util
import os
import re
import shutil
import socket
import subprocess
import sys

ROOT = os.path.dirname(os.path.dirname(os.path.dirname(os.path.realpath(__file__))))
DIST = os.path.join(ROOT, "dist")
RELEASED = os.path.join(DIST, "x86_64-linux")
# What a proof reads of a crate.
PARTS = ("src", "specs", "proofs")


def text_of(path):
    with open(path, encoding="utf-8", errors="replace") as file:
        return file.read()


def digest_of(path):
    with open(path, "rb") as file:
        return hashlib.file_digest(file, "sha256").hexdigest() if hasattr(hashlib, "file_digest") else \
            hashlib.sha256(file.read()).hexdigest()


def put(made, out):
    """Puts a copy of a file in its place at once, so that nobody sees half of it."""
    part = f"{out}.{os.getpid()}.new"
    try:
        shutil.copy(made, part)
        os.replace(part, out)
    finally:
        if os.path.exists(part):
            os.remove(part)


def help_first(text):
    """Prints what a script says of itself, where that is asked for, before it needs what a machine may lack."""
    if {"-h", "--help"} & set(sys.argv[1:]):
        print(text.strip())
        sys.exit(0)


def module(path, name):
    """A script as a module."""
    loader = importlib.machinery.SourceFileLoader(name, path)
    made = importlib.util.module_from_spec(importlib.util.spec_from_loader(name, loader))
    sys.modules[name] = made
    loader.exec_module(made)
    return made


# The crates.

def crate_in(tree, name):
    return os.path.join(tree, "crates", name)


def crates_of(tree):
    """The crates that a tree's crates.txt lists, each with the libraries that it uses."""
    lines = re.findall(r"^(\w+)[^:\n]*:(.*)$", text_of(os.path.join(tree, "crates.txt")), re.MULTILINE)
    return {name: uses.split() for name, uses in lines}


def crates():
    return crates_of(ROOT)


def with_below(needs, names):
    """These crates and those that they stand on, each behind those that it stands on itself."""
    found = []
    for name in names:
        if name in needs and name not in found:
            below = with_below(needs, needs[name])
            found += [it for it in [*below, name] if it not in found]
    return found


# The machine.

def processors():
    return len(os.sched_getaffinity(0))


def available_memory():
    """How many bytes of memory processes may take that are begun now; none where the system doesn't tell."""
    found = re.search(r"^MemAvailable: +(\d+) kB$", text_of("/proc/meminfo"), re.MULTILINE)
    return int(found[1]) * 1024 if found else 0


def free_port():
    with socket.socket() as one:
        one.bind(("127.0.0.1", 0))
        return one.getsockname()[1]


# The kit.

def kit_line():
    """The line by which the kit names itself, or nothing where it isn't."""
    if not shutil.which("rt"):
        return None
    done = subprocess.run(["rt", "version"], stdin=subprocess.DEVNULL, capture_output=True, text=True)
    return done.stdout.strip() if done.returncode == 0 and done.stdout.strip() else None


def kit_folder():
    """The folder of the kit, or nothing where it isn't."""
    if not shutil.which("rt"):
        return None
    done = subprocess.run(["rt", "doc"], stdin=subprocess.DEVNULL, capture_output=True, text=True)
    return os.path.dirname(os.path.realpath(done.stdout.strip())) if done.returncode == 0 else None


def of_kit(name, *words, **how):
    """Runs a tool of LLVM that the kit's compiler has in it, as llvm-strip or ld.lld."""
    clang = os.path.join(kit_folder(), "toolchain", "bin", "clang")
    return subprocess.run([name, *words], executable=clang, check=True, **how)


# Programs.

def program_here():
    """The program that ./jk starts: what was built here and is newer than the sources, or else the released one."""
    sources = [os.path.join(at, name) for crate in crates() for part in PARTS
               for at, _, names in os.walk(os.path.join(crate_in(ROOT, crate), part)) for name in names]
    newest = max(os.stat(it).st_mtime_ns for it in sources)
    for program in (os.path.join(ROOT, "out", "jk"), os.path.join(crate_in(ROOT, "jk_prog"), "out", "jk_prog"),):
        if os.access(program, os.X_OK) and os.stat(program).st_mtime_ns >= newest:
            return program
    released = os.path.join(RELEASED, "jk")
    return released if os.access(released, os.X_OK) else None


def release_named():
    """The version and the date at the head of CHANGELOG.md."""
    text = text_of(os.path.join(ROOT, "CHANGELOG.md"))
    found = re.search(r"^## \[(\d+\.\d+\.\d+)\] - (\d{4}-\d\d-\d\d)$", text, re.MULTILINE)
    if not found:
        sys.exit("CHANGELOG.md has no line such as ## [1.2.3] - 2026-01-31")
    return found[1], found[2]
