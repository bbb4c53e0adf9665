"""A short run of tools/faults: each table whole, some random queries, and a pipe of some million rows."""
import os
import subprocess
import sys
import unittest

import trees

TOOL = f"{trees.TOP}/tools/faults/faults.py"


@unittest.skipIf(os.environ.get("SABER_QUICK") == "1", "SABER_QUICK is set")
class Faults(unittest.TestCase):
    def right(self, part, *words):
        """That a part finds nothing wrong."""
        command = [sys.executable, "-B", TOOL, "--program", trees.PROGRAM, *words, part]
        ran = subprocess.run(command, stdin=subprocess.DEVNULL, capture_output=True, text=True, check=False)
        self.assertEqual(ran.returncode, 0, ran.stdout + ran.stderr)

    def test_ends_of_inputs_and_outputs(self):
        self.right("ends")

    def test_limits(self):
        self.right("limits")

    def test_limits_of_the_system(self):
        self.right("system")

    def test_random_queries(self):
        self.right("sizes", "--queries", "25")

    def test_many_rows(self):
        self.right("large", "--rows", "3000000")

    def test_a_program_that_says_nothing_is_found(self):
        command = [sys.executable, "-B", TOOL, "--program", "/bin/true", "ends"]
        ran = subprocess.run(command, stdin=subprocess.DEVNULL, capture_output=True, text=True, check=False)
        self.assertEqual(ran.returncode, 1, ran.stdout)
        self.assertIn("WRONG: ends: standard output is closed", ran.stdout)
