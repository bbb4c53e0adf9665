"""A short run of tools/races, where its programs are built already: one planted race is found, and some hundred runs are right."""
import os
import subprocess
import sys
import unittest

import trees

TOOL = f"{trees.TOP}/tools/races/races.py"


def call(*words):
    """Calls the tool with the program to compare with."""
    command = [sys.executable, "-B", TOOL, "--program", trees.PROGRAM, *words]
    return subprocess.run(command, stdin=subprocess.DEVNULL, capture_output=True, text=True, check=False)


@unittest.skipIf(os.environ.get("SABER_QUICK") == "1", "SABER_QUICK is set")
class Races(unittest.TestCase):
    def test_runs_are_drawn_from_the_seed(self):
        drawn = [call("--dry", "--runs", "50", "--seed", seed).stdout for seed in "778"]
        self.assertEqual(drawn[0], drawn[1])
        self.assertNotEqual(drawn[0], drawn[2])

    def test_a_planted_race_is_found_and_no_other(self):
        ready = call("--ready")
        if ready.returncode:
            self.skipTest(ready.stderr.strip())
        ran = call("--seconds", "20", "--runs", "400", "--plant", "a store made plain", "--jobs", "2", "--seed", "test")
        self.assertEqual(ran.returncode, 0, ran.stdout + ran.stderr)
        self.assertIn("planted: a store made plain: reported", ran.stdout)
        self.assertIn("none wrong", ran.stdout)
