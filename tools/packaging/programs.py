"""The program that is handed on: what it was built of, and what it needs."""
import hashlib
import os
import re
import struct

import places

# The machine in the head of an ELF file, by its number, as Debian calls it.
MACHINES = {62: "amd64", 183: "arm64"}
BUILT = f"{places.TOP}/target/current/saber"
CHECKED = f"{places.TOP}/crates/saber/out/saber"


def usual():
    """The program of this tree: the one that its wrapper runs, or the one that a check of its crate left."""
    return next((it for it in (BUILT, CHECKED) if os.access(it, os.X_OK)), None)


def beside(program):
    """What the file BUILD beside a program says of it, by keys; nothing where it is of another."""
    try:
        with open(f"{os.path.dirname(os.path.realpath(program))}/BUILD", encoding="utf-8") as file:
            told = dict(line.rstrip("\n").split(": ", 1) for line in file if ": " in line)
    except OSError:
        return {}
    return told if told.get("hash") == hash_of(program) else {}


def hash_of(program):
    with open(program, "rb") as file:
        return hashlib.sha256(file.read()).hexdigest()


def is_checked(program):
    """Whether it is the program that a check of this tree left, and no source is newer: only what is proved is built there."""
    if not os.path.exists(CHECKED) or not os.path.samefile(program, CHECKED):
        return False
    newest = max(os.path.getmtime(f"{places.TOP}/{it}") for it in places.tracked("crates", "crates.txt"))
    return newest <= os.path.getmtime(program)


def commit():
    found = places.said("git", "rev-parse", "--short=12", "HEAD")
    return found + ", with changes" * bool(places.said("git", "status", "--porcelain", "--", "crates", "crates.txt"))


def told(program):
    """The text of the file BUILD that is handed on with a program. One that nothing is known of is told as not proved."""
    known = beside(program)
    if not known and is_checked(program):
        known = {"proved": "yes", "kit": places.said("rt", "version"), "commit": commit()}
    told = {"version": places.version(), "proved": "no", "commit": "unknown", **known, "hash": hash_of(program)}
    return "".join(f"{key}: {value}\n" for key, value in told.items() if value)


def needs(data):
    """The version of the C library that the symbols of a program need."""
    found = [tuple(map(int, it.split(b"."))) for it in re.findall(rb"\0GLIBC_(\d+(?:\.\d+)+)(?=\0)", data)]
    return ".".join(map(str, max(found, default=(2, 2, 5))))


def machine(data):
    """The machine of a program, as Debian calls it."""
    return MACHINES.get(struct.unpack_from("<H", data, 18)[0], "all") if data[:4] == b"\x7fELF" else "all"
