"""Which words are a command: as the wrapper judges them before there is a program, and as the program does."""
import os
import random
import subprocess
import sys
import tempfile
import unittest

import trees

sys.path.insert(0, f"{trees.TOP}/tools/wrapper")
import words as judge

NAMES = ["q", "left", "right", "-", "", "no such", "--", "é"]
NUMBERS = ["0", "1", "8", "9", "64", "65", "+7", "007", "1024", "1025", "65536", "65537", "1048576", "1048577", "2147483648", str(2**40),
           str(2**40 + 1), "9" * 30, "0" * 30 + "5", "x", "", "5m", "-3", "1.5", " 4", "1_0", "٣"]
OPTIONS = ["--task", "--ring", "--threads", "--max-lines", "--slack", "--final", "--tas", "-t", "--", "---", "--=", "--Final"]


def line(chance):
    """The words of a random command line, most of them nearly right."""
    command = chance.choice(["run", "run", "many", "many", "chain", "check", "demo", "demo", "Run", "", "version2", "--", "-x"])
    count = {"run": 2, "many": chance.randrange(2, 11), "chain": 3, "check": 1, "demo": 2}.get(command, 1) + chance.choice([0, 0, 0, 0, 1, -1])
    names = NUMBERS[:8] if command == "demo" else NAMES[:4]
    found = [[chance.choice(names if chance.random() < 0.9 else NAMES + NUMBERS)] for _ in range(max(0, count))]
    for _ in range(chance.choice([0, 0, 1, 1, 2])):
        option = chance.choice(OPTIONS[:6] if chance.random() < 0.85 else OPTIONS)
        number = chance.choice(NUMBERS[:6] if chance.random() < 0.7 else NUMBERS)
        given = {0: [option, number], 1: [f"{option}={number}"]}[chance.randrange(2)]
        found.insert(chance.randrange(len(found) + 1), [option] if option == "--final" and chance.random() < 0.9 else given)
    return [command, *[word for part in found for word in part]]


class Words(unittest.TestCase):
    def test_judged_as_by_the_program(self):
        chance, commands = random.Random(1), 0
        with tempfile.TemporaryDirectory() as folder:
            for _ in range(600):
                given = line(chance)
                ran = subprocess.run([trees.PROGRAM, *given], cwd=folder, stdin=subprocess.DEVNULL, capture_output=True, check=False)
                refused = ran.stderr == judge.USAGE.encode()
                self.assertEqual(judge.is_command(given), not refused, given)
                commands += not refused
        self.assertGreater(commands, 100)

    def test_words_that_are_no_text(self):
        given = ["check", os.fsdecode(b"\xff")]
        ran = subprocess.run([trees.PROGRAM, *given], stdin=subprocess.DEVNULL, capture_output=True, check=False)
        self.assertEqual(ran.stderr.decode(), judge.USAGE)
        self.assertFalse(judge.is_command(given))

    def test_files_of_rows(self):
        for given, files in {"run q l r --task 5": "l r", "many --final l q q": "l", "chain q q -- l": "l", "check q": "", "demo 1 2": ""}.items():
            self.assertEqual(judge.files_of_rows(given.split()), files.split())
