#!/usr/bin/env python3
"""package.py deb|tar OUT [--program PATH], package.py install PREFIX [PROGRAM]: hands the program on with all that belongs to it.

Without a program it is the one of this tree, which is built first if need be. The times in an archive are SOURCE_DATE_EPOCH, else
that of the commit, so the same files give the same bytes.
"""
import argparse
import os
import subprocess
import sys

import archives
import files
import places
import programs


def program_of(given):
    """The program that is handed on, or an end where there is none."""
    found = given or programs.usual()
    if not found:
        subprocess.run([f"{places.TOP}/saber", "demo", "0", "0"], stdout=subprocess.DEVNULL, check=False)
        found = programs.usual()
    if not found or not os.path.isfile(found):
        sys.exit(f"package: there is no program {given or programs.BUILT}")
    return found


def time_of_files():
    return int(os.environ.get("SOURCE_DATE_EPOCH") or places.said("git", "log", "-1", "--format=%ct") or 0)


def install(prefix, found):
    """Puts the files below a prefix, each at once, so that a program that runs keeps its own."""
    for path, data, executable in found:
        name = os.path.join(prefix, path)
        os.makedirs(os.path.dirname(name), exist_ok=True)
        with open(f"{name}.new", "wb") as file:
            file.write(data)
        os.chmod(f"{name}.new", 0o755 if executable else 0o644)
        os.replace(f"{name}.new", name)


def write(name, data):
    with open(name, "wb") as file:
        file.write(data)


def archive(kind, found):
    """The bytes of the archive."""
    version, when = places.version(), time_of_files()
    if kind == "tar":
        return archives.tar([(f"saber-{version}/{path}", data, executable) for path, data, executable in found], when)
    program = next(data for path, data, _ in found if path == "libexec/saber/saber")
    return archives.deb(found, version, programs.machine(program), programs.needs(program), when)


def words():
    reader = argparse.ArgumentParser(prog="tools/package", description=__doc__, formatter_class=argparse.RawDescriptionHelpFormatter)
    kinds = reader.add_subparsers(dest="kind", required=True, metavar="deb|tar|install")
    for kind in ("deb", "tar"):
        own = kinds.add_parser(kind)
        own.add_argument("out", metavar="OUT")
        own.add_argument("--program", metavar="PATH")
    own = kinds.add_parser("install", prog="tools/install")
    own.add_argument("out", metavar="PREFIX")
    own.add_argument("program", metavar="PROGRAM", nargs="?")
    return reader.parse_args()


def main():
    given = words()
    program = program_of(given.program)
    found = files.every(program)
    try:
        if given.kind == "install":
            install(given.out, found)
        else:
            write(given.out, archive(given.kind, found))
    except OSError as error:
        sys.exit(f"package: {error.filename}: {error.strerror}")
    build = next(data.decode() for path, data, _ in found if path == "share/saber/BUILD")
    proved = "proved" if "proved: yes\n" in build else "not proved"
    print(f"saber {places.version()} ({proved}): {given.out}, {len(found)} files")


if __name__ == "__main__":
    main()
