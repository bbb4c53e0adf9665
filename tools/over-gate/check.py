#!/usr/bin/env python3
"""check.py GATE TREE CRATE [WORDS ..]: `rattle check` of a crate of TREE, over the libraries that `rt ci` built in the clone GATE.

The crates below stay unread, so single functions take half a minute where `rt check` builds all of them first:
    check.py /work/gate . saber_group --allow-holes --only saber_group::open::Open::close_lines
With `-o FILE.rlib` in place of `--allow-holes` and `--only` the crate is built, and the crates above can be checked over it: give its
folder for the gate's by LIBS=NAME=FOLDER,.. in the environment. JOBS is the number of processes (2).
"""
import os, subprocess, sys
KIT = os.path.dirname(subprocess.check_output(["rt", "doc"], text=True).strip())
gate, tree, crate, words = os.path.abspath(sys.argv[1]), os.path.abspath(sys.argv[2]), sys.argv[3], sys.argv[4:]
deps = {}
for line in open(f"{tree}/crates.txt"):
    name, _, rest = line.split("#")[0].partition(":")
    if name.strip():
        deps[name.split()[0]] = rest.split()
below = []
def visit(name):
    for it in deps[name]:
        if it in deps and it not in below:
            visit(it)
            below.append(it)
visit(crate)
mine = dict(it.split("=") for it in os.environ.get("LIBS", "").split(",") if it)
folder = lambda name: mine.get(name, f"{gate}/crates/{name}/out/rlib")
root = "src/lib.rt" if os.path.exists(f"{tree}/crates/{crate}/src/lib.rt") else "src/main.rt"
command = [f"{KIT}/bin/rattle", "build" if "-o" in words else "check", "--crate-name", crate, root, "--extern", f"std={KIT}/rlibs/std.rlib"]
for name in deps[crate]:
    command += ["--extern", f"{name}={folder(name)}/{name}.rlib" if name in deps else f"{name}={KIT}/rlibs/{name}.rlib"]
for it in [f"{KIT}/rlibs", *map(folder, below)]:
    command += ["-L", f"dependency={it}"]
command += ["--antt-project", f"{KIT}/rattle/logic/antt-project.json", "--logic-built", f"{KIT}/logic_built", "--jobs", os.environ.get("JOBS", "2"), *words]
sys.exit(subprocess.call(command, cwd=f"{tree}/crates/{crate}"))
