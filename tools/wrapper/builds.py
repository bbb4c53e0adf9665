"""The programs that a repository has, each in a folder of target/ with a file BUILD that says what it is of.

`proved` has the program whose proofs were checked, `quick` the one that was compiled without proof, `current` is a link to the
folder of the one that runs. The wrapper takes that without asking here as long as no source is newer than its BUILD.
"""
import contextlib
import fcntl
import hashlib
import os
import subprocess
import sys

import places

sys.path.append(f"{places.TOOLS}/unproved")
import compiling

TOP = places.TOP
TARGET = f"{TOP}/target"
SLOTS = ("proved", "quick")
# Clocks of files go by steps of up to ten milliseconds.
STEP = 0.05


def hash_of(name):
    with open(name, "rb") as file:
        return hashlib.sha256(file.read()).hexdigest()


def sources(tree=TOP, top="saber"):
    """The files that a program is made of."""
    found = [f"{tree}/crates.txt"]
    for crate in [*compiling.below(compiling.crates(tree), top), top]:
        for folder, folders, names in os.walk(f"{tree}/crates/{crate}/src"):
            folders.sort()
            found += [f"{folder}/{name}" for name in sorted(names)]
    return found


def stamp():
    """A hash of the sources, with their names."""
    told = hashlib.sha256()
    for name in sources():
        told.update(f"{os.path.relpath(name, TOP)} {hash_of(name)}\n".encode())
    return told.hexdigest()


def kit():
    """The line that names the toolchain, or nothing where there is none."""
    try:
        return subprocess.check_output(["rt", "version"], text=True, stdin=subprocess.DEVNULL, stderr=subprocess.DEVNULL).strip()
    except (OSError, subprocess.CalledProcessError):
        return ""


def git(*words):
    try:
        return subprocess.check_output(["git", "-C", TOP, *words], text=True, stdin=subprocess.DEVNULL, stderr=subprocess.DEVNULL).strip()
    except (OSError, subprocess.CalledProcessError):
        return ""


def commit():
    """The commit of the sources."""
    found = git("rev-parse", "--short=12", "HEAD") if git("rev-parse", "--show-prefix") == "" else ""
    if not found:
        return "unknown"
    return found + (", with changes" if git("status", "--porcelain", "--", "crates.txt", ":(glob)crates/*/src/**") else "")


def read(folder):
    """What a file BUILD says, by its keys."""
    try:
        lines = places.text_of(f"{folder}/BUILD").splitlines()
    except OSError:
        return {}
    return dict(line.split(": ", 1) for line in lines if ": " in line)


def is_of(folder, wanted, kit_name):
    """Whether a folder has a program of these sources and this toolchain, or of any where there is none."""
    told = read(folder)
    fits = told.get("sources") == wanted and (not kit_name or told.get("kit") == kit_name)
    return fits and os.access(f"{folder}/saber", os.X_OK)


def find(wanted, kit_name):
    """The folder of the program of these sources, the proved one first."""
    for slot in SLOTS:
        if is_of(f"{TARGET}/{slot}", wanted, kit_name):
            return slot
    return None


def choose(slot, seen):
    """Has the wrapper take this program from now on: the sources were looked at at the time `seen`."""
    link = f"{TARGET}/current"
    with contextlib.suppress(OSError):
        os.utime(f"{TARGET}/{slot}/BUILD", (seen - STEP, seen - STEP))
        if not os.path.islink(link) or os.readlink(link) != slot:
            new = f"{link}.{os.getpid()}"
            os.symlink(slot, new)
            os.replace(new, link)
    return f"{TARGET}/{slot}/saber"


def put(slot, program, wanted, kit_name, seen):
    """Puts a program that was built into its folder, and has the wrapper take it. The program stands before what is told of it."""
    folder = f"{TARGET}/{slot}"
    os.makedirs(folder, exist_ok=True)
    with contextlib.suppress(FileNotFoundError):
        os.remove(f"{folder}/BUILD")
    os.replace(program, f"{folder}/saber")
    told = {
        "version": places.text_of(places.VERSION).strip(), "proved": "yes" if slot == "proved" else "no", "kit": kit_name, "commit": commit(),
        "hash": hash_of(f"{folder}/saber"), "sources": wanted,
    }
    with open(f"{folder}/BUILD.new", "w", encoding="utf-8") as file:
        file.writelines(f"{key}: {value}\n" for key, value in told.items())
    os.replace(f"{folder}/BUILD.new", f"{folder}/BUILD")
    return choose(find(wanted, kit_name) or slot, seen)


@contextlib.contextmanager
def alone(slot):
    """Holds the lock of the builds of a slot; a build beside it waits."""
    os.makedirs(TARGET, exist_ok=True)
    with open(f"{TARGET}/{slot}.lock", "w", encoding="utf-8") as file:
        try:
            fcntl.flock(file, fcntl.LOCK_EX | fcntl.LOCK_NB)
        except BlockingIOError:
            places.say("waiting for another call that builds the same")
            fcntl.flock(file, fcntl.LOCK_EX)
        yield

