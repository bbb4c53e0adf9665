"""What a sanitizer reports and where threads stood, with the names of functions and the lines of the sources that they begin at.

The module has no lines, and a function may have been taken into the one that calls it: a place is that of the function round it.
"""
import bisect
import functools
import os
import re
import struct
import subprocess

import building

FRAME = re.compile(r"\((?:[^()+]*/)?([^()/+]+)\+0x([0-9a-f]+)\)")
FRAMES = 6
PLACE = struct.Struct(f"<QQ{FRAMES}Q")


@functools.lru_cache(maxsize=8)
def symbols(program):
    """The addresses of a program's functions in order, and their names."""
    lines = subprocess.run(["nm", "-n", "--defined-only", program], capture_output=True, text=True, check=True).stdout.splitlines()
    found = [line.split(" ", 2) for line in lines]
    return [int(it[0], 16) for it in found if it[1] in "tTwW"], [it[2] for it in found if it[1] in "tTwW"]


def name_at(program, address):
    """The function that an address is in."""
    starts, names = symbols(program)
    at = bisect.bisect_right(starts, address) - 1
    return names[at] if at >= 0 else "?"


@functools.lru_cache(maxsize=None)
def functions(crate):
    """The functions of a crate's sources: name, the head of the impl that each stands in, file, line, text."""
    folder = f"{building.TOP}/crates/{crate}"
    if not os.path.isdir(folder):
        folder = building.compiling.folder_in_kit(building.compiling.kit(), crate)
    found = []
    for at, _, names in sorted(os.walk(f"{folder}/src")):
        for name in sorted(names):
            found += functions_of(f"{at}/{name}") if name.endswith(".rt") else []
    return found


def functions_of(name):
    """The functions of a file."""
    found, head = [], ""
    with open(name, encoding="utf-8") as file:
        for number, line in enumerate(file, 1):
            if re.match(r"(unsafe )?impl\b|(pub(\(\w+\))? )?trait\b", line):
                head = line
            elif line.startswith("}"):
                head = ""
            known = re.match(r"\s*(?:pub(?:\([\w: ]+\))? )?(?:const )?(?:unsafe )?(?:extern \"C\" )?fn (\w+)", line)
            if known:
                found.append((known[1], head, name.removeprefix(f"{building.TOP}/"), number, line.strip()))
    return found


@functools.lru_cache(maxsize=None)
def source_of(name):
    """Where the function of a symbol begins: its file, line and text, or nothing for what is no function of a crate."""
    path = re.sub(r"::<.*", "", name).split("::")
    if len(path) < 2 or not re.fullmatch(r"\w+", path[0]):
        return ""
    fits = [it for it in functions(path[0]) if it[0] == path[-1]]
    fits.sort(key=lambda it: (path[-2] not in re.split(r"\W+", it[1]), os.path.basename(it[2]) != f"{path[-2]}.rt"))
    return f"{fits[0][2]}:{fits[0][3]}: {fits[0][4]}" if fits else ""


def place(program, address, returns):
    """The function of an address, with its source; behind a call the address is that of the next step."""
    name = name_at(program, address - returns)
    source = source_of(name)
    return re.sub(r"::<.*", "", name) + (f"\n         {source}" if source else "")


def told(program, text, most=60):
    """A report with names and sources in place of addresses, without what is no frame of the program."""
    lines = []
    for line in text.splitlines():
        found = FRAME.search(line)
        if found and found[1] == os.path.basename(program):
            number = line.split()[0]
            line = f"    {number} {place(program, int(found[2], 16), number != '#0')}"
        if line.strip():
            lines.append(line)
    return "\n".join(lines[:most])


def standing(program, name):
    """Where the threads of a run that didn't end stood last, by the file of its places."""
    try:
        with open(name, "rb") as file:
            content = file.read()
    except OSError:
        return ""
    lines = []
    for number, (steps, done, *frames) in enumerate(PLACE.iter_unpack(content[:len(content) // PLACE.size * PLACE.size])):
        if steps and not done:
            lines.append(f"  thread {number}, {steps} steps, stood in")
            lines += [f"    #{at} {place(program, it, True)}" for at, it in enumerate(frames) if it]
    return "\n".join(lines)
