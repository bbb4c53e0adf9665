"""The cases of wrapper.cases: what comes of a call, without hints and with."""
import os
import shlex
import unittest

import trees


def fields():
    """The fields of the file of cases: what stands before the colon, and its text. A line of text ends with LF."""
    found = []
    with open(f"{trees.HERE}/wrapper.cases", encoding="utf-8") as file:
        for line in file.read().splitlines():
            if line.startswith("  ") or not line and found and found[-1][1]:
                found[-1][1].append(line[2:])
            elif line and not line.startswith("#"):
                head, _, rest = line.partition(":")
                found.append((head, [rest.strip()] if rest.strip() else []))
    return [(head, "".join(f"{line}\n" for line in strip(lines))) for head, lines in found]


def strip(lines):
    """The lines without the empty ones at the end."""
    while lines and not lines[-1]:
        lines = lines[:-1]
    return lines


def cases():
    """The cases, each with the fields of its section."""
    section, own, found = {}, None, []
    for head, text in fields():
        if head == "section":
            section = own = {}
        elif head == "case":
            own = {**section, "title": text.rstrip("\n")}
            found.append(own)
        else:
            own[head] = text
    return found


class Cases(unittest.TestCase):
    maxDiff = None

    def call(self, case, hints):
        """Calls the wrapper for a case in a folder of its own, and compares what comes of it."""
        place = trees.Installation(self)
        for head, text in case.items():
            if head.startswith("file "):
                place.write(head[5:], text)
        ran = place.call(*shlex.split(case["words"]), hints=hints)
        self.assertEqual((ran.returncode, ran.stdout.decode()), (int(case.get("status", "0")), case.get("out", "")), ran.stderr)
        for head, text in case.items():
            if head.startswith("after "):
                with open(f"{place.at}/{head[6:]}", encoding="utf-8") as file:
                    self.assertEqual(file.read(), text)
        return ran.stderr.decode()

    def test_cases(self):
        tried = cases()
        self.assertGreater(len(tried), 15)
        for case in tried:
            note = case.get("note", "")
            with self.subTest(case["title"]):
                self.assertEqual(self.call(case, hints=False), note)
            with self.subTest(f"{case['title']}, with hints"):
                said = self.call(case, hints=True)
                self.assertTrue(said.startswith(note) and (note or not said), said)
                if not os.path.isdir(f"{trees.TOP}/tools/explain"):
                    self.assertEqual(said, note)
