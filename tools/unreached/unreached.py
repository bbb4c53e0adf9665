#!/usr/bin/env python3
"""unreached.py [CRATE ..]: declarations of proofs/ and specs/ that no contract, answer or crate above reaches.

Without CRATE it looks through all crates. A line a file names them, with how many lines they have. A declaration is reached where its
name stands in an answer, a contract, a module that is imported with it, or in another one that is reached; worked rows (`Worked*`,
`*Cases`, `Checks`) are reached by themselves. It reads names, not meanings: a row is a place to look, and the checker decides what may go.
"""
import collections
import glob
import os
import re
import sys

TOP = os.path.dirname(os.path.dirname(os.path.dirname(os.path.realpath(__file__))))
NAME = r"[^\s:(){},.=]+"
USE = re.compile(r"^\s*(?:ghost )?use (Rattle\.[\w.]+)\.\{([^}]*)\}", re.M)
HEAD = re.compile(rf"^((?:abbrev |pub |record |data |unfoldable )*)(?:({NAME}(?:, {NAME})*)(?= :| \(.*\) :| \{{.*\}} :)|ruleset ({NAME}) =)")
WORKED = "^Worked|Cases$|^Checks$"


def module_of(path):
    """Returns the name by which other modules import the one of this file."""
    return "Rattle." + os.path.relpath(path, f"{TOP}/crates")[: -len(".antt")].replace("/", ".")


def indent(line):
    return len(line) - len(line.lstrip())


class Module:
    """The declarations of a file: each has the names that it declares and its lines; and where imported names come from."""

    def __init__(self, path):
        self.path, self.name = path, module_of(path)
        with open(path, encoding="utf-8") as it:
            self.lines = it.read().split("\n")
        self.imports = {}
        for module, names in USE.findall("\n".join(self.lines)):
            for name in names.split(","):
                own, _, called = name.strip().partition(" as ")
                self.imports[called or own] = (module, own)
        self.parts, self.heads = [], []
        self.cut()

    def cut(self):
        """Cuts the file into declarations. A clause belongs to the declaration of its name; heads of `module _` and `mutual` are apart."""
        depth, now = 0, None
        for number, line in enumerate(self.lines):
            body = line.lstrip()
            if not body or body.startswith(("use ", "ghost use ", "--", "unfolding ")):
                continue
            if body.startswith(("module _", "mutual")):
                depth, now = indent(line) + 2, None
                self.heads.append(number)
                continue
            depth = min(depth, indent(line))
            if indent(line) > depth:
                continue
            head = HEAD.match(body)
            names = [it.strip() for it in (head[2] or head[3]).split(",")] if head else None
            if head and (head[1] or not now or names != now[0]):
                now = (names, number)
                self.parts.append((names, number))

    def text(self, start, end):
        return "\n".join(it for it in self.lines[start:end] if not it.lstrip().startswith(("--", "use ")))

    def spans(self):
        """Returns each declaration with where it begins and where the next one, or the next such head, does."""
        starts = sorted([it for _, it in self.parts] + self.heads) + [len(self.lines)]
        return [(names, it, next(other for other in starts if other > it)) for names, it in self.parts]


def words(text):
    """Returns all that may be a name in a text, whole and in the parts of an operator."""
    return set(re.findall(r"[^\s(){}\[\],;.]+", text)) | set(re.findall(r"[\w'-]+", text))


def reached(modules, roots):
    """Returns the declarations that these roots reach, as pairs of module and name."""
    by_name = {(it.name, name): (it, start, end) for it in modules for names, start, end in it.spans() for name in names}
    seen, left = set(), [it for it in roots if it in by_name]
    while left:
        at = left.pop()
        if at in seen:
            continue
        seen.add(at)
        module, start, end = by_name[at]
        found = words(module.text(start, end))
        left += [(module.name, it) for it in found if (module.name, it) in by_name]
        left += [place for called, place in module.imports.items() if place in by_name and set(called.split("◌")) - {""} <= found]
    return seen


def roots_of(crate, modules, others):
    """Returns what is reached from outside the modules: by imports, by `using`, by heads of `module _`, and worked rows."""
    own = {it.name for it in modules}
    for text in others:
        for module, names in USE.findall(text):
            if module in own:
                yield from ((module, it.strip().partition(" as ")[0]) for it in names.split(","))
        for module, called in re.findall(r"use (Rattle\.[\w.]+) as (\w+)", text):
            if module in own:
                yield from ((module, it) for it in re.findall(rf"\b{called}\.([\w'-]+)", text))
        for way, name in re.findall(rf"(?:{crate}|crate)::((?:proofs|specs)(?:::\w+)+)::([\w-]+)", text):
            yield f"Rattle.{crate}." + way.replace("::", "."), name
    for module in modules:
        worked = re.search(WORKED, module.name.split(".")[-1])
        if worked:
            yield from ((module.name, name) for names, _ in module.parts for name in names)
        for start in module.heads:
            head = words(module.text(start, start + 3))
            yield from ((module.name, it) for it in head)
            yield from (place for called, place in module.imports.items() if called in head)


def main():
    crates = sys.argv[1:] or sorted(os.listdir(f"{TOP}/crates"))
    if crates[0].startswith("-"):
        sys.exit(__doc__)
    unknown = [it for it in crates if not os.path.isdir(f"{TOP}/crates/{it}")]
    if unknown:
        sys.exit(f"no crate: {' '.join(unknown)}")
    files = [it for part in ("proofs", "specs") for it in glob.glob(f"{TOP}/crates/*/{part}/**/*.antt", recursive=True)]
    code = glob.glob(f"{TOP}/crates/*/src/**/*.rt", recursive=True)
    texts = {}
    for path in files + code:
        with open(path, encoding="utf-8") as it:
            texts[path] = it.read()
    total = collections.Counter()
    for crate in crates:
        top = f"{TOP}/crates/{crate}"
        own = [it for it in files if it.startswith(f"{top}/specs/") or os.path.dirname(it) == f"{top}/proofs"]
        modules = [Module(it) for it in own if os.path.basename(it) != "Lib.antt"]
        paths = {it.path for it in modules}
        seen = reached(modules, roots_of(crate, modules, [text for path, text in texts.items() if path not in paths]))
        for module in modules:
            lost = [it for it in module.spans() if not any((module.name, name) in seen for name in it[0])]
            if lost:
                lines = sum(end - start for _, start, end in lost)
                total[crate] += lines
                print(f"{os.path.relpath(module.path, TOP)}: {lines} lines: {' '.join(name for names, _, _ in lost for name in names)}")
    print(f"{sum(total.values())} lines in {len(total)} crates")


if __name__ == "__main__":
    main()
