#!/usr/bin/env python3
"""Tests of the hints (tools/explain): each case of hints.cases, what the tables must have, and that files and texts of any kind are borne.

The environment variable SABER_PROGRAM names the program, whose notes are compared with those of the cases; without it these tests are skipped.
"""
import glob
import os
import random
import re
import shlex
import subprocess
import sys
import tempfile
import unittest

sys.dont_write_bytecode = True
HERE = os.path.dirname(os.path.realpath(__file__))
TOP = os.path.dirname(os.path.dirname(HERE))
EXPLAIN = f"{TOP}/tools/explain"
sys.path.insert(0, EXPLAIN)
import explain
import grammar
import lines
import queries
import slips
import words

PROGRAM = os.environ.get("SABER_PROGRAM", "")


def read(name):
    with open(name, encoding="utf-8") as file:
        return file.read()


def unescaped(text):
    return text.encode().decode("unicode_escape").encode("latin-1")


class Case:
    """Words, their status and notes, and what is said of them."""

    def __init__(self, title):
        self.title, self.words, self.to, self.status, self.notes, self.said = title, [], "", 0, [], []
        self.recorded = False

    def take(self, name, value):
        if name == "words":
            self.words = [unescaped(it).decode() for it in shlex.split(value)]
        elif name == "to":
            self.to = value
        elif name == "note":
            self.notes.append(value)
        elif name == "status":
            status, _, recorded = value.partition(" ")
            self.status, self.recorded = int(status), bool(recorded)


def filled(line):
    """A line that is said, with what the page of help says in place of {commands}, {usage COMMAND} and {options COMMAND}."""
    line = line.replace("{commands}", ", ".join(PAGE.commands))
    line = re.sub(r"\{usage (\w+)\}", lambda it: PAGE.usage(it[1]), line)
    return re.sub(r"\{options (\w+)\}", lambda it: " ".join(PAGE.takes(it[1])), line)


def cases_of(name):
    """The files and the cases of a file of cases, whose head tells its form."""
    files, cases = [], []
    for line in read(name).splitlines():
        head, _, value = line.partition(": ")
        if line.startswith("  "):
            cases[-1].said.append(filled(line[2:]))
        elif head.startswith("file "):
            _, file, *times = shlex.split(head)
            files.append((file, unescaped(value) * int(times[0] if times else 1)))
        elif head == "pipe":
            files.append((value, None))
        elif head == "case":
            cases.append(Case(value))
        elif line and head != "section" and not line.startswith("#"):
            cases[-1].take(head.rstrip(":"), value)
    return files, cases


PAGE = words.Page(read(f"{TOP}/docs/help.txt"))
FILES, CASES = cases_of(f"{HERE}/hints.cases")


def written():
    """A folder with the files of the cases; it goes with the object."""
    folder = tempfile.TemporaryDirectory(prefix="saber-hints-")
    for name, data in FILES:
        path = os.path.join(folder.name, name)
        os.makedirs(os.path.dirname(path), exist_ok=True)
        if data is None:
            os.mkfifo(path)
        else:
            with open(path, "wb") as file:
                file.write(data)
    return folder


def sink(to):
    """Where a run's answer goes: a pipe that nobody reads, or a file."""
    if to != "closed":
        return os.open(to or os.devnull, os.O_WRONLY)
    end, begin = os.pipe()
    os.close(end)
    return begin


class InFolder(unittest.TestCase):
    def setUp(self):
        folder = written()
        self.addCleanup(folder.cleanup)
        self.addCleanup(os.chdir, os.getcwd())
        os.chdir(folder.name)


class Hints(InFolder):
    def test_what_is_said(self):
        for case in CASES:
            with self.subTest(case.title):
                self.assertEqual(explain.explained("\n".join(case.notes), case.words, PAGE), case.said)

    def test_each_refusal_has_a_sentence_of_its_own(self):
        plain = {*slips.PLAIN.values(), "these words are no command"}
        for case in CASES:
            if case.notes and not case.recorded:
                with self.subTest(case.title):
                    self.assertFalse(plain & set(case.said))
                    self.assertTrue(case.said)

    @unittest.skipUnless(PROGRAM, "SABER_PROGRAM names no program: notes are not compared with the program's")
    def test_notes_are_those_of_the_program(self):
        for case in CASES:
            if case.recorded:
                continue
            with self.subTest(case.title):
                end = sink(case.to)
                ran = subprocess.run([PROGRAM, *case.words], stdin=subprocess.DEVNULL, stdout=end, stderr=subprocess.PIPE, check=False)
                os.close(end)
                self.assertEqual((ran.returncode, ran.stderr.decode().splitlines()), (case.status, case.notes))


class Tables(unittest.TestCase):
    """What the tables of sentences have to have, by the program's own texts and by the documents."""

    def notes_of(self, function):
        text = read(f"{TOP}/crates/saber_notes/src/note.rt")
        body = text[text.index(f"fn {function}("):]
        found = re.findall(r'"([a-z ]+)"', body[:body.index("\n}\n")])
        return [it.partition(" in field")[0] for it in found]

    def test_each_cause_of_a_query(self):
        causes = self.notes_of("query_text")
        self.assertEqual(len(causes), 16)
        for cause in causes:
            with self.subTest(cause):
                self.assertIn(cause, slips.TABLES)
                self.assertTrue(any(note.endswith(f": {cause}") for case in CASES for note in case.notes))
                self.assertTrue(cause in slips.PLAIN or slips.TABLES[cause][-1][0] in ("", "@ "))

    def test_each_cause_of_a_line(self):
        causes = self.notes_of("add_line_text")
        self.assertEqual(len(causes), 7)
        for cause in causes:
            with self.subTest(cause):
                self.assertIn(cause, lines.PLAIN)
                self.assertTrue(any(f": {cause}" in note for case in CASES for note in case.notes))

    def test_the_grammar_is_that_of_the_language(self):
        text = read(f"{TOP}/docs/LANGUAGE.md")
        self.assertEqual(re.search(r"```text\n(Query .*?)```", text, re.S)[1], grammar.GRAMMAR)
        named = re.search(r"none of the keywords:(.*?)\.\n", text, re.S)[1].split()
        self.assertEqual(set(named), grammar.KEYWORDS)

    def test_what_the_grammar_takes(self):
        """The grammar of the hints stops where the program does, in each query of the crates' cases that stands in a line of its own."""
        count = 0
        case = re.compile(r"^file q: ([^\\\n]+)\\\n(?:status: 3\n)?(out: |note: saber: query byte \d+: syntax$)", re.M)
        for name in glob.glob(f"{TOP}/crates/saber_cases/data/*.cases"):
            for text, end in case.findall(read(name)):
                tokens = grammar.tokens_of(text.encode())
                place, _ = grammar.may_stand(tokens)
                starts = [at for at, _ in tokens] + [len(text.encode())]
                told = re.search(r"\d+", end)
                with self.subTest(text):
                    self.assertEqual(starts[place], int(told[0]) if told else starts[-1])
                count += 1
        self.assertGreater(count, 80)

    def test_each_pattern_can_be_read(self):
        for table in slips.TABLES.values():
            for pattern, _ in table:
                re.compile(queries.read(pattern))
        for table in [lines.LINES, lines.FIELDS, lines.RANGES]:
            for pattern, _ in table:
                re.compile(pattern)

    def test_a_word_in_capitals_is_a_whole_token(self):
        read = queries.read("(SUM|MIN) @ |[RID]STREAM @ |VAR\\w* @ |(?!{keyword})X @")
        for text, wanted in [("SUM @ ", True), ("CHECKSUM @ ", False), ("RSTREAM @ ", True), ("XRSTREAM @ ", False), ("VARIANCE @ ", True)]:
            self.assertEqual(bool(re.search(read, text)), wanted, text)


class Bearing(InFolder):
    """Nothing that stands in files or words makes a hint fail loudly, wait, or hold much."""

    def test_any_place_of_any_text(self):
        draw = random.Random(1)
        names = [name for name, data in FILES if name.endswith(".cql") and data is not None and len(data) < 1000]
        for _ in range(600):
            name = draw.choice(names)
            with open(name, "rb") as file:
                size = len(file.read())
            note = f"saber: query byte {draw.randint(0, size + 1)}: {draw.choice(list(slips.TABLES))}"
            self.assertTrue(explain.explained(note, ["run", name, "s.csv"], PAGE), (name, note))

    def test_any_bytes_of_a_query_and_of_a_line(self):
        draw = random.Random(2)
        parts = [b"SELECT ", b"STREAM ", b"FROM ", b"[", b"]", b"(", b",", b";", b"'", b"1", b".", b"x ", b"\n", b"\r", b"\xff", b"\0", b"-", b"@"]
        causes = [f"query byte 7: {cause}" for cause in slips.TABLES]
        causes += [f"left line 1: {cause}{' in field 1' * (cause in ('bad number', 'range'))}" for cause in lines.PLAIN]
        for _ in range(600):
            data = b"".join(draw.choices(parts, k=draw.randint(0, 30)))
            with open("any", "wb") as file:
                file.write(data)
            note = f"saber: {draw.choice(causes)}"
            self.assertIsInstance(explain.explained(note, ["run", "any", "any"], PAGE), list, (data, note))

    def test_any_words(self):
        draw = random.Random(3)
        some = ["run", "many", "chain", "check", "demo", "q", "--task", "--task=", "--final", "--", "-", "-x", "1", "", "--slack=5", "é", "\n"]
        usage = "saber: usage: saber run QUERY LEFT [RIGHT] | check QUERY | demo SEED ROWS"
        for _ in range(1000):
            given = draw.choices(some, k=draw.randint(0, 6))
            self.assertTrue(explain.explained(usage, given, PAGE), given)

    def test_a_long_text_of_one_kind(self):
        for part in ["FROM ", "STREAM x (", "SELECT a , ", "( ", "x", "1 ", ", ", "[ ROWS 1 ", "- ", "\n", "WHERE ( "]:
            with open("long.cql", "w", encoding="utf-8") as file:
                file.write("STREAM S(t); " + part * (60000 // len(part)))
            for byte, cause in [(13, "bad byte"), (30000, "unknown column"), (30000, "syntax")]:
                note = f"saber: query byte {byte}: {cause}"
                self.assertTrue(explain.explained(note, ["run", "long.cql", "s.csv"], PAGE), (part, cause))

    def test_a_deep_condition(self):
        text = "STREAM S(t); SELECT t FROM S WHERE " + "(" * 64 + "t = 1" + ")" * 40 + " x"
        with open("deep.cql", "w", encoding="utf-8") as file:
            file.write(text)
        told = explain.explained(f"saber: query byte {len(text) - 1}: syntax", ["check", "deep.cql"], PAGE)
        self.assertIn("x stands where the grammar has AND  OR  or )", told)

    def run_explain(self, *given, memory=None):
        limit = f"ulimit -v {memory}; " if memory else ""
        command = f'{limit}exec python3 "$@"'
        called = ["bash", "-c", command, "_", f"{EXPLAIN}/explain.py", *given]
        ran = subprocess.run(called, stdin=subprocess.DEVNULL, capture_output=True, timeout=120, check=False)
        self.assertEqual((ran.returncode, ran.stdout), (0, b""))
        return ran.stderr.decode()

    def test_as_a_program(self):
        told = self.run_explain("4", "saber: left line 1: bad number in field 1", "run", "ok.cql", "h.csv")
        self.assertEqual(told.splitlines()[0], "  h.csv, line 1:")

    def test_nothing_is_said_of_what_is_not_known(self):
        for given in [[], ["4"], ["70", ""], ["130", "Killed", "run"], ["4", "saber: left line 1: other cause", "run", "ok.cql", "s.csv"]]:
            self.assertEqual(self.run_explain(*given), "", given)

    def test_a_pipe_is_not_read(self):
        self.assertIn("can't be read again", self.run_explain("3", "saber: query byte 3: syntax", "run", "pipe.cql", "s.csv"))
        self.assertTrue(self.run_explain("4", "saber: left line 3: time order", "run", "ok.cql", "pipe.cql"))
        self.assertTrue(self.run_explain("5", "saber: left: open fault", "run", "ok.cql", "pipe.cql"))

    def test_a_large_file_is_not_held(self):
        with open("large.csv", "wb") as file:
            file.write(b"5,1,1\n3,1,1\n")
            file.truncate(1 << 28)
        told = self.run_explain("4", "saber: left line 2: time order", "run", "ok.cql", "large.csv", memory=200_000)
        self.assertIn("its time is 2 below the greatest", told)
        told = self.run_explain("4", "saber: left line 3: too long", "run", "ok.cql", "large.csv", memory=200_000)
        self.assertIn("more than 1,048,576 bytes", told)


if __name__ == "__main__":
    unittest.main()
