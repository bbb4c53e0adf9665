"""The console lines of all documents: as the cases of the gate have them, and as the program answers them."""
import subprocess
import sys
import unittest

import trees


class Documents(unittest.TestCase):
    def call(self, *words):
        ran = subprocess.run([sys.executable, "-B", "tools/documents/documents.py", *words], cwd=trees.TOP, capture_output=True, text=True, check=False)
        self.assertEqual(ran.returncode, 0, ran.stdout + ran.stderr)
        self.assertGreater(int(ran.stdout.split()[-5]), 20, ran.stdout)

    def test_by_the_cases(self):
        self.call()

    def test_by_the_program(self):
        self.call("--program", trees.PROGRAM)
