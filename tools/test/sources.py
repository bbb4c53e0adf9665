"""What documents and edits say of the sources: each edit fits the code, counts are those of the tree, names stand, no line is too long."""
import glob
import os
import re
import subprocess
import sys
import unittest

import trees

# An edit is texts of a file, `old` and what stands in its place, `new`; either may go on over lines.
PART = re.compile(r"^(file|old|new):", re.M)
NAME = re.compile(r"[A-Za-z_][\w']*")
# What documents name that the sources don't have: of other programs, of examples, and the parts of `a_*_is_no_event`.
OTHERS = {"a_", "_is_no_event", "average", "brk", "fflush", "rand"}


def read(name):
    with open(f"{trees.TOP}/{name}", encoding="utf-8") as file:
        return file.read()


def names(pattern):
    return sorted(os.path.relpath(it, trees.TOP) for it in glob.glob(f"{trees.TOP}/{pattern}", recursive=True))


def called(tool, *words):
    return subprocess.run([sys.executable, "-B", f"{trees.TOP}/tools/{tool}", *words], cwd=trees.TOP, capture_output=True, text=True, check=False)


def parts_of(text):
    """The parts of an edit, in their order: what each is, and its text."""
    _, *found = PART.split(text)
    return [(kind, re.sub(r"^ ?\n?", "", body).removesuffix("\n")) for kind, body in zip(found[::2], found[1::2])]


def faults_of(crate, name):
    """What is wrong with an edit: a text that doesn't stand exactly once, or one that isn't changed."""
    file, old = "", ""
    for kind, text in parts_of(read(name)):
        if kind == "file":
            file = read(f"crates/{crate}/{text.strip()}")
        elif kind == "old":
            old = text
            if file.count(old) != 1:
                yield f"{name}: {file.count(old)} times: {old}"
        elif text.split() == old.split():
            yield f"{name}: nothing is changed"


class Edits(unittest.TestCase):
    def test_each_fits(self):
        edits = names("edits/*/*.edit") + names("crates/*/must-fail/*.edit")
        self.assertGreater(len(edits), 100)
        self.assertEqual([], [fault for name in edits for fault in faults_of(name.split("/")[1], name)])

    def test_none_is_of_edits_and_of_the_gate(self):
        gates = {it.replace("crates/", "edits/").replace("/must-fail", "") for it in names("crates/*/must-fail/*.edit")}
        self.assertEqual([], [it for it in names("edits/*/*.edit") if it in gates])


class Counts(unittest.TestCase):
    def test_definitions_to_read(self):
        ran = called("reading-list/reading_list.py")
        self.assertEqual(ran.returncode, 0, ran.stderr)
        counts = [f"{int(definitions):,} definitions, {int(lines):,} lines" for definitions, lines in re.findall(r": definitions (\d+) lines (\d+)", ran.stdout)]
        self.assertEqual(len(counts), 3, ran.stdout)
        told = " ".join(read("README.md").split())
        self.assertEqual([], [it for it in counts if it not in told])

    def test_unreached_declarations(self):
        ran = called("unreached/unreached.py", "saber_plan")
        self.assertEqual(ran.returncode, 0, ran.stderr)
        self.assertRegex(ran.stdout, r"\d+ lines in \d crates\n$")
        self.assertEqual(called("unreached/unreached.py", "saber_nothing").returncode, 1)


def code_names():
    """All names of code, of definitions, of tools and of files; comments name nothing."""
    known = set(NAME.findall(read("saber")))
    for part in ("crates", "tools", "edits", "examples", "docs"):
        for folder, _, files in os.walk(f"{trees.TOP}/{part}"):
            if f"{folder}/".find("/out/") < 0:
                known |= set(NAME.findall(" ".join([os.path.basename(folder), *files])))
                for name in files:
                    if name.endswith((".rt", ".antt", ".py", ".cases", ".c", ".cql", ".txt")) and name != os.path.basename(__file__):
                        with open(f"{folder}/{name}", encoding="utf-8") as file:
                            known |= set(NAME.findall(re.sub(r"(//|-- ).*", "", file.read()) if name.endswith((".rt", ".antt")) else file.read()))
    return known


def comments(text):
    return "\n".join(line for line in text.split("\n") if line.lstrip().startswith(("//", "-- ")))


class Names(unittest.TestCase):
    def test_each_stands(self):
        """Each name in backquotes in documents, but PROOFS.md, which is full of forms, and in comments of code and definitions."""
        known = code_names() | OTHERS
        texts = {it: re.sub(r"^```.*?^```", "", read(it), flags=re.M | re.S) for it in ["README.md", *names("docs/*.md")] if it != "docs/PROOFS.md"}
        texts |= {it: comments(read(it)) for ending in ("src/**/*.rt", "specs/**/*.antt", "proofs/**/*.antt") for it in names(f"crates/*/{ending}")}
        lost = []
        for name, text in texts.items():
            quoted = [it for it in re.findall(r"`([^`\n]+)`", text) if re.fullmatch(r"[A-Za-z_][\w./:'*]*(\(\))?", it)]
            lost += [f"{name}: {it}" for it in quoted if not set(NAME.findall(it)) <= known]
        self.assertEqual([], lost)


def excerpts(text):
    """The blocks of code whose first line is a comment with the path of a file: that path, and the lines below it."""
    for path, body in re.findall(r"^ *```\w*\n *(?://|#|--) (\S+/\S+)\n(.*?)^ *```$", text, re.M | re.S):
        yield path, [line.strip() for line in body.splitlines() if line.strip()]


def lost_lines(path, lines):
    """The first line of an excerpt that doesn't stand in its file behind those before it, or nothing."""
    if not os.path.exists(f"{trees.TOP}/{path}"):
        return [f"{path}: no such file"]
    left = iter([line.strip() for line in read(path).splitlines()])
    return [f"{path}: {line}" for line in lines if line not in left][:1]


class Excerpts(unittest.TestCase):
    def test_each_stands(self):
        """Lines may be left out of a block, but none may be other than in the file, or in another order."""
        found = [(name, *it) for name in ["README.md", *names("docs/*.md")] for it in excerpts(read(name))]
        self.assertGreater(sum(name == "docs/ARCHITECTURE.md" for name, _, _ in found), 8)
        self.assertEqual([], [f"{name}: {lost}" for name, path, lines in found for lost in lost_lines(path, lines)])

    def test_a_moved_line_is_told(self):
        self.assertEqual(lost_lines("tools/test/sources.py", ["import glob", "import os"]), [])
        self.assertEqual(lost_lines("tools/test/sources.py", ["import os", "import glob"]), ["tools/test/sources.py: import glob"])
        self.assertEqual(lost_lines("tools/test/nothing.py", []), ["tools/test/nothing.py: no such file"])


class Lines(unittest.TestCase):
    def test_none_is_too_long(self):
        """But in blocks and tables, which hold texts as they are."""
        long = []
        for name in ["README.md", *names("docs/*.md")]:
            text = re.sub(r"^```.*?^```", lambda it: "\n" * it[0].count("\n"), read(name), flags=re.M | re.S)
            long += [f"{name}:{number}" for number, line in enumerate(text.split("\n"), 1) if len(line) > 100 and line[:1] != "|"]
        self.assertEqual([], long)
