"""Measuring and drawing: on few rows, so that what is measured says nothing."""
import os
import shutil
import subprocess
import sys
import tempfile
import unittest
import xml.etree.ElementTree as xml

import trees

CHARTS = ["growth.svg", "instructions.svg", "memory.svg", "speed.svg", "threads.svg"]


class Performance(unittest.TestCase):
    def setUp(self):
        self.at = tempfile.mkdtemp(prefix="saber-test-")
        self.addCleanup(shutil.rmtree, self.at, ignore_errors=True)

    def call(self, tool, *words):
        ran = subprocess.run([sys.executable, "-B", f"tools/{tool}", *words], cwd=trees.TOP, capture_output=True, text=True, check=False)
        self.assertEqual(ran.returncode, 0, ran.stdout + ran.stderr)
        return ran.stderr

    def drawn(self, path):
        """The texts of all charts of what was measured."""
        self.call("draw-performance", path, self.at)
        self.assertEqual(sorted(it for it in os.listdir(self.at) if it.endswith(".svg")), CHARTS)
        return {name: " ".join(it.text or "" for it in xml.parse(f"{self.at}/{name}").iter() if it.tag.endswith("text")) for name in CHARTS}

    def test_few_rows(self):
        path = f"{self.at}/few.csv"
        parts = ["row_counts", "memory", "seconds"] + ["windows"] * bool(shutil.which("valgrind"))
        self.call("measure", "--program", trees.PROGRAM, "--told", "tried", "--rows", "2000", "--rounds", "1", "--out", path, "--only", *parts)
        with open(path, encoding="utf-8") as file:
            lines = file.read().splitlines()
        self.assertIn("# program: tried", lines)
        self.assertEqual({line.split(",")[0] for line in lines if line[0] != "#"}, {"what", *parts})
        told = self.drawn(path)
        self.assertIn("Program: tried.", told["speed.svg"])
        self.assertIn("each key", told["threads.svg"])

    def test_where_no_time_is_left(self):
        path = f"{self.at}/none.csv"
        told = self.call("measure", "--program", trees.PROGRAM, "--rows", "2000", "--minutes", "0", "--out", path, "--only", "memory")
        self.assertIn("no time was left for all of memory", told)
        self.assertIn("Memory", self.drawn(path)["memory.svg"])

    def test_the_charts_are_of_the_file(self):
        for name, text in self.drawn("docs/performance.csv").items():
            with self.subTest(name), open(f"{trees.TOP}/docs/{name}", "rb") as kept, open(f"{self.at}/{name}", "rb") as new:
                self.assertTrue(text)
                self.assertEqual(kept.read(), new.read())
