#!/usr/bin/env python3
"""reading_list.py [TREE [NAME ..]]: the definitions that the contracts of `saber` and `top` rest on, by crate and file.

It counts them three times: of the two calls, with the law of free turns (free.rt of saber_workers), the first half of what is
claimed, and with the same law of several queries (free.rt of saber_many). A definition in a `mutual` block is one, with its own lines; lines are those without comments and empty ones, and the
heads of modules count with what stands in them. Types that the code declares and names of the kit are told apart, not read.

By names and imports alone, so it is a list to read by, and no proof of anything. A name counts where a definition uses it:
not as a field (`x.name`, `name = ..` in a record), and not where the same definition binds it. Names that are given are left
out, with all that only they need.
"""
import collections
import functools
import os
import re
import sys

TREE = sys.argv[1] if len(sys.argv) > 1 else os.path.join(os.path.dirname(os.path.abspath(__file__)), "..", "..")
ROOT = os.path.join(os.path.abspath(TREE), "crates")
CALLS = ("saber_cli/src/top.rt", "saber_top/src/call.rt")
LAWS = (("with the law of free turns", "saber_workers/src/free.rt"), ("with that of several queries", "saber_many/src/free.rt"))
IMPORT = re.compile(r"(?:ghost |pub )?use ([\w.]+?)(?:\.\{(.*)\}| as ([\w'\-]+))?;?$")
# Words before a definition's name.
MARKS = ("abbrev", "unfoldable", "pub", "record", "data", "inductive")
# Lines that define nothing.
OTHERS = ("ruleset", "unfolding", "mod")
NAME = r"[A-Za-z_][\w'\-?]*"
# A name that is no field, with the one behind its dot.
USED = re.compile(rf"(?<![\w'\-?.])({NAME})(?:\.({NAME}))?")

# What a file of definitions has: what each name brings that it imports; the modules that it names, by their short names;
# its definitions; and of each constructor the definition that it is of.
Definitions = collections.namedtuple("Definitions", "imports modules blocks owners")
# A definition: its texts, each with the names that it binds; its lines; the heads of the modules that it stands in.
Block = collections.namedtuple("Block", "kind texts lines heads")
# What may stand behind a name: a definition of the repository, a type that the code declares, or something of the kit.
Own = collections.namedtuple("Own", "path name")
Declared = collections.namedtuple("Declared", "crate name")
Kit = collections.namedtuple("Kit", "crate name")


def place(module, name):
    """What an imported name is."""
    crate, _, rest = module.removeprefix("Rattle.").partition(".")
    if not os.path.isdir(f"{ROOT}/{crate}"):
        return Kit(crate, f"{rest}.{name}")
    parts = rest.split(".")[1:]
    if parts[:1] == ["declared"]:
        return Declared(crate, ".".join(part for part in parts[1:] if part[:3] != "The"))
    path = f"{ROOT}/{crate}/specs/{'/'.join(parts)}.antt"
    return Own(path, name) if os.path.exists(path) else None


def imported(line):
    """The names that an import brings with what they are, and the module that it brings under a short name."""
    found = IMPORT.match(line)
    if not found:
        return {}, {}
    if found[3] or not found[2]:
        return {}, {found[3] or found[1].split(".")[-1]: found[1]}
    pairs = [name.strip().split(" as ") for name in found[2].split(",")]
    brought = {pair[-1].strip(): place(found[1], pair[0].strip()) for pair in pairs}
    return {name: it for name, it in brought.items() if it}, {}


def bound_in(text):
    """The names that a text binds itself: of arguments, of functions and of `let`."""
    groups = re.findall(rf"[({{]({NAME}(?:\s+{NAME})*)\s+:\s", text) + re.findall(r"λ\s*([^.]*?)\s*\.", text)
    return {name for group in groups for name in re.findall(NAME, group)} | set(re.findall(rf"\blet\s+({NAME})", text))


def lines_of(path):
    """The lines of a file without comments and texts in quotes, each with how far it is in; empty ones are left out."""
    for line in open(path, encoding="utf-8").read().split("\n"):
        line = re.sub(r"(^|\s)--(\s.*)?$", "", re.sub(r'"[^"]*"', '""', line)).rstrip()
        if line:
            yield len(line) - len(line.lstrip()), line.strip()


@functools.lru_cache(maxsize=None)
def definitions(path):
    imports, modules, blocks, owners = {}, {}, collections.OrderedDict(), {}
    # The blocks that a line stands in: how far in their lines are, and the head of each that is a module.
    within, head, current = [(0, None)], None, None
    for indent, line in lines_of(path):
        if head is not None:
            # A module's head goes on up to its `where`.
            head.append(line)
            head = None if line.endswith("where") else head
            continue
        while indent < within[-1][0]:
            within.pop()
        words = line.split()
        while words and words[0] in MARKS[:3]:
            words = words[1:]
        if indent > within[-1][0]:
            if current:
                current.lines.append(line)
                current.texts[-1].append(line)
                made = re.match(rf"({NAME})\s+:\s", line)
                if current.kind == "data" and made:
                    owners[made[1]] = name
            continue
        if words[0] == "use":
            brought, named = imported(line)
            imports.update(brought)
            modules.update(named)
        elif words[0] == "module":
            within.append((indent + 2, [line]))
            head = None if line.endswith("where") else within[-1][1]
        elif words[0] == "mutual":
            within.append((indent + 2, None))
        elif words[0] not in OTHERS:
            kind = words[0] if words[0] in MARKS else "function"
            name = words[1] if words[0] in MARKS else words[0]
            current = blocks.setdefault(name, Block(kind, [], [], [it for _, it in within if it]))
            current.texts.append([line])
            current.lines.append(line)
    return Definitions(imports, modules, blocks, owners)


def what(path, name):
    """What a name is in a file of definitions, if it is no name of its own texts alone."""
    here = definitions(path)
    if name in here.blocks:
        return Own(path, name)
    if name in here.owners:
        return Own(path, here.owners[name])
    return here.imports.get(name)


def settled(it):
    """What it is in the end: a constructor is its definition, and a name that is handed on is where it comes from."""
    while isinstance(it, Own) and it.name not in definitions(it.path).blocks:
        it = what(it.path, it.name)
    return it


def is_made(path, name):
    """Whether a name is a constructor there, of a definition or of a type that the code declares."""
    here = definitions(path)
    if name in here.blocks:
        return False
    it = here.imports.get(name)
    return name in here.owners or isinstance(it, (Declared, Kit)) or isinstance(it, Own) and is_made(it.path, it.name)


def used_in(path, text, bound):
    """What a text of a definition uses; a name that it binds is none that stands around it."""
    here, found = definitions(path), set()
    for match in USED.finditer(text):
        name, behind = match.groups()
        if name in bound or re.match(r"\s=\s", text[match.end(1):]):
            continue
        if behind and name in here.modules:
            found.add(place(here.modules[name], behind))
        else:
            found.add(what(path, name))
    for name, it in here.imports.items():
        if "◌" in name and all(part in text for part in name.split("◌") if part):
            found.add(it)
    return {settled(it) for it in found} - {None}


def pieces(path, kind, lines, outer):
    """What a text of a definition is made of, each piece with the names that are bound there."""
    text = "\n".join(lines)
    if kind == "record":
        # A field is bound from the next one on: `words : words tree ≡ ts` is of the definition `words`.
        bound, piece, field = outer | bound_in(lines[0]), [], set()
        for line in lines:
            made = re.match(rf"(?:pub )?({NAME})\s+:\s", line)
            if made:
                yield "\n".join(piece), bound | bound_in("\n".join(piece))
                bound, piece, field = bound | field, [line[made.end():]], {made[1]}
            else:
                piece.append(line)
        yield "\n".join(piece), bound | bound_in("\n".join(piece))
        return
    bound = outer | bound_in(text)
    left, *right = re.split(r"\s=(?=\s)", text, maxsplit=1)
    if kind == "function" and right and " : " not in re.sub(r"[({][^(){}]*[)}]", "", left):
        bound |= {name for name in re.findall(NAME, left)[1:] if not is_made(path, name)}
        yield left, bound
        yield right[0], bound
    else:
        yield text, bound


def needs(path, name):
    """What a definition uses, with the heads of the modules that it stands in."""
    block = definitions(path).blocks[name]
    heads = [" ".join(head) for head in block.heads]
    outer = set().union(*map(bound_in, heads))
    texts = [piece for lines in block.texts for piece in pieces(path, block.kind, lines, outer)]
    return set().union(*(used_in(path, text, bound) for text, bound in texts + [(head, outer) for head in heads]))


def visit(it, seen, left_out):
    """Adds something and all that it needs to what was seen."""
    waiting = [settled(it)]
    while waiting:
        it = waiting.pop()
        if it is None or it in seen or it.name in left_out:
            continue
        seen.add(it)
        if isinstance(it, Own):
            waiting.extend(needs(it.path, it.name))


def roots(call):
    """What the contracts of a file of code name."""
    for line in open(f"{ROOT}/{call}", encoding="utf-8"):
        if line.strip().startswith("ghost use"):
            yield from imported(line.strip())[0].values()


def crate_of(path):
    return os.path.relpath(path, ROOT).split("/")[0]


def counted(seen):
    """How many lines of definitions each crate has, with the files that these are in."""
    lines, files, heads = collections.Counter(), collections.defaultdict(set), set()
    for it in seen:
        if isinstance(it, Own):
            block = definitions(it.path).blocks[it.name]
            lines[crate_of(it.path)] += len(block.lines)
            files[crate_of(it.path)].add(it.path)
            for head in block.heads:
                if id(head) not in heads:
                    heads.add(id(head))
                    lines[crate_of(it.path)] += len(head)
    return lines, files


def told(title, seen):
    lines, files = counted(seen)
    kit = collections.Counter(it.crate for it in seen if isinstance(it, Kit))
    print(f"{title}: definitions {sum(isinstance(it, Own) for it in seen)} lines {sum(lines.values())} files {sum(map(len, files.values()))}")
    print("  beside them: types of the code", len({it for it in seen if isinstance(it, Declared)}), "names of the kit", sum(kit.values()),
          "(" + ", ".join(f"{crate} {count}" for crate, count in kit.most_common()) + ")")


def main():
    seen, left_out = set(), set(sys.argv[2:])
    for call in CALLS:
        for it in roots(call):
            visit(it, seen, left_out)
    told("the calls `saber` and `top`", seen)
    for title, law in LAWS:
        for it in roots(law):
            visit(it, seen, left_out)
        told(title, seen)
    lines, files = counted(seen)
    for crate, count in sorted(lines.items(), key=lambda it: (-it[1], it[0])):
        print(f"{count:5d} {crate}:", ", ".join(sorted(map(os.path.basename, files[crate]))))


main()
