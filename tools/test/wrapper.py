"""The wrapper beside the bare program: the same bytes and the same status, but for the words that it answers itself."""
import os
import random
import shutil
import statistics
import subprocess
import sys
import time
import unittest

import trees

sys.path.insert(0, f"{trees.TOP}/tools/wrapper")
import many
import words

QUERIES = {
    "sums.cql": "STREAM S(t, g, v); SELECT g, SUM(v) FROM S [RANGE 4 SLIDE 4] GROUP BY g;",
    "rows.cql": "STREAM S(t, g, v); SELECT t, v * 2 FROM S WHERE v > 2;",
    "pairs.cql": "STREAM A(t, g, v); STREAM B(t, g, v); SELECT x FROM A [ROWS 2 SLIDE 2], B [ROWS 2 SLIDE 2] WHERE A.v = B.v;",
    "more.cql": "STREAM W(n, g, s); SELECT n, s FROM W WHERE s > 3;",
    "bad.cql": "STREAM S(t, g, v); SELECT AVG(v) FROM S;",
}
ROWS = {
    "few.csv": "".join(f"{at},{at % 3},{at % 7}\n" for at in range(40)),
    "bad.csv": "0,1,2\n1,1,x\n",
    "late.csv": "4,1,2\n1,1,2\n",
    "empty.csv": "",
}
NAMES = [*QUERIES, *ROWS, "no such", "", "-", "/dev/stdin", ".", "sums.cql.out"]
OPTIONS = {"--task": ["1", "7", "65536", "0", "x"], "--ring": ["1", "64", "2000"], "--threads": ["0", "2", "8", "9", "65"],
           "--max-lines": ["1", "3", "100"], "--slack": ["0", "5", "-1"]}
HELP = [["help"], ["--help"], ["-h"], ["help", "run"], ["-V"], ["--version"], ["version"], ["run", "--help"], ["many", "x", "-h"], []]


def names_of(chance, command):
    """Files that mostly suit the command."""
    queries, rows = list(QUERIES), list(ROWS)
    count = {"run": [1, 1], "many": [1, chance.randrange(1, 4)], "chain": [2, 1], "check": [1, 0]}.get(command, [1, 1])
    found = [chance.choice(queries) for _ in range(count[0])] + [chance.choice(rows) for _ in range(count[1])]
    if command == "many":
        found = [chance.choice(rows)] + [chance.choice(queries) for _ in range(count[1])]
    if command == "demo":
        found = [str(chance.randrange(99)), str(chance.randrange(300))]
    for at, _ in enumerate(found):
        if chance.random() < 0.12:
            found[at] = chance.choice(NAMES)
    return found


def line(chance):
    """The words of a random command line."""
    command = chance.choice(["run", "run", "run", "many", "many", "chain", "check", "demo", "frob", "", "RUN"])
    found = names_of(chance, command)
    for option in chance.sample(list(OPTIONS), chance.choice([0, 0, 0, 1, 2])):
        value = chance.choice(OPTIONS[option])
        found += [f"{option}={value}"] if chance.random() < 0.3 else [option, value]
    found += ["--final"] * (chance.random() < 0.3) + ["--"] * (chance.random() < 0.05)
    return [command, *found]


class Wrapper(unittest.TestCase):
    def setUp(self):
        self.place = trees.Installation(self)
        for name, text in {**QUERIES, **ROWS}.items():
            self.place.write(name, text)

    def bare(self, *given, **how):
        return subprocess.run([self.place.bare, *given], cwd=self.place.at, capture_output=True, check=False, timeout=180, **{"stdin": subprocess.DEVNULL, **how})

    def outs(self):
        """What `many` wrote, which is taken away."""
        found = {}
        for name in os.listdir(self.place.at):
            if name.endswith(".out"):
                with open(f"{self.place.at}/{name}", "rb") as file:
                    found[name] = file.read()
                os.remove(f"{self.place.at}/{name}")
        return found

    def meet(self, given):
        """Whether `many` would write over what it reads."""
        names = words.parts(given)[0] if given[0] == "many" and words.is_command(given) else []
        before = os.getcwd()
        os.chdir(self.place.at)
        try:
            return bool(names and many.fault(names[0], names[1:]))
        finally:
            os.chdir(before)

    def test_500_random_command_lines(self):
        chance, ended, refused = random.Random(5), set(), 0
        for number in range(500):
            given = line(chance)
            ran = self.place.call(*given)
            if self.meet(given):
                self.assertEqual((ran.returncode, ran.stdout, self.outs()), (2, b"", {}), given)
                refused += 1
                continue
            written = self.outs()
            bare = self.bare(*given)
            self.assertEqual((ran.returncode, ran.stdout, ran.stderr, written), (bare.returncode, bare.stdout, bare.stderr, self.outs()), given)
            ended.add(ran.returncode)
            if number % 5 == 0:
                self.with_hints(given, bare)
        self.assertLessEqual({0, 2, 3, 4, 5}, ended)
        self.assertGreater(refused, 2)

    def with_hints(self, given, bare):
        """That with hints the answer and the status are the same, and the note comes first."""
        ran = self.place.call(*given, hints=True)
        self.outs()
        self.assertEqual((ran.returncode, ran.stdout), (bare.returncode, bare.stdout), given)
        self.assertTrue(ran.stderr.startswith(bare.stderr), (given, ran.stderr))
        self.assertNotIn(b"Traceback", ran.stderr)
        if bare.returncode == 0 or not os.path.isdir(f"{self.place.at}/share/saber/explain"):
            self.assertEqual(ran.stderr, bare.stderr)

    def test_words_of_its_own(self):
        for given in HELP:
            ran = self.place.call(*given)
            self.assertEqual((ran.returncode, ran.stderr), (0, b""), given)
            self.assertEqual(self.bare(*given).returncode, 2)

    def test_the_page_of_each_command(self):
        page = self.place.call("help").stdout.decode()
        with open(f"{trees.TOP}/docs/help.txt", encoding="utf-8") as file:
            self.assertEqual(page, file.read())
        for command in ("run", "many", "chain", "check", "demo"):
            own = self.place.call("help", command).stdout.decode()
            self.assertEqual(own, self.place.call(command, "--help").stdout.decode())
            self.assertTrue(own.startswith(f"Usage: saber {command} "))
            taken = {it for it in (*OPTIONS, "--final") if f"\n  {it} " in own}
            self.assertEqual(taken, {*words.COMMANDS[command][1], *words.COMMANDS[command][2]}, command)
        ran = self.place.call("help", "frob")
        self.assertEqual((ran.returncode, ran.stdout), (2, b""))

    def test_what_looks_like_help_and_is_a_file(self):
        self.place.write("--help", QUERIES["sums.cql"])
        for given in (["run", "--", "--help", "few.csv"], ["check", "--", "--help"], ["check", "--", "-h"]):
            ran, bare = self.place.call(*given), self.bare(*given)
            self.assertEqual((ran.returncode, ran.stdout, ran.stderr), (bare.returncode, bare.stdout, bare.stderr))

    def test_version_of_an_installation(self):
        version = self.place.call("--version").stdout.decode()
        self.assertRegex(version, r"^saber \d+\.\d+\.\d+\n$")
        told = "version: 1\nproved: yes\nkit: kit one\ncommit: abc\n"
        self.place.write("share/saber/BUILD", told)
        self.assertIn(" (proved, kit one, commit abc)\n", self.place.call("--version").stdout.decode())
        self.place.write("share/saber/BUILD", f"{told}hash: 123\n")
        self.assertIn("the program isn't the one", self.place.call("-V").stdout.decode())

    def test_nothing_is_built_of_an_installation(self):
        ran, bare = self.place.call("prove"), self.bare("prove")
        self.assertEqual((ran.returncode, ran.stdout, ran.stderr), (2, b"", bare.stderr))

    def test_by_links_and_from_anywhere(self):
        given, how = ["check", "sums.cql"], {"capture_output": True, "check": False, "cwd": self.place.at}
        answer = self.bare(*given).stdout
        os.symlink("bin/saber", f"{self.place.at}/link")
        os.symlink(f"{self.place.at}/link", f"{self.place.at}/far")
        path = {**self.place.environment, "PATH": f"{self.place.at}/bin:{os.environ['PATH']}", "CDPATH": "/"}
        for called in (["./link"], ["./far"], ["bin/saber"], ["saber"], ["bash", "link"], [f"{self.place.at}/bin/../bin/saber"]):
            self.assertEqual(subprocess.run([*called, *given], env=path, **how).stdout, answer, called)

    def test_open_files_are_handed_on(self):
        for hints in ("0", "1"):
            command = 'bin/saber run <(echo "$1") <(cat few.csv) </dev/null'
            ran = subprocess.run(["bash", "-c", command, "bash", QUERIES["sums.cql"]], cwd=self.place.at, capture_output=True, check=False,
                                 env={**self.place.environment, "SABER_HINTS": hints})
            self.assertEqual((ran.returncode, ran.stdout), (0, self.bare("run", "sums.cql", "few.csv").stdout), ran.stderr)

    def test_standard_input(self):
        wanted = self.bare("run", "sums.cql", "few.csv")
        for hints in (False, True):
            ran = self.piped("run", "sums.cql", "/dev/stdin", hints=hints)
            self.assertEqual((ran.returncode, ran.stdout, ran.stderr), (0, wanted.stdout, wanted.stderr))

    def piped(self, *given, hints):
        environment = {**self.place.environment, "SABER_HINTS": "1" if hints else "0"}
        return subprocess.run([self.place.saber, *given], input=ROWS["few.csv"].encode(), capture_output=True, check=False, cwd=self.place.at, env=environment)

    def test_an_answer_that_cannot_go_out(self):
        for hints in (False, True):
            with open("/dev/full", "wb") as full:
                ran = subprocess.run([self.place.saber, "run", "sums.cql", "few.csv"], stdout=full, stderr=subprocess.PIPE, cwd=self.place.at, check=False,
                                     env={**self.place.environment, "SABER_HINTS": "1" if hints else "0"})
            self.assertEqual(ran.returncode, 6)
            self.assertTrue(ran.stderr.startswith(b"saber: write fault\n"), ran.stderr)

    def test_closed_files_are_not_other_ones(self):
        both = "STREAM A(t, g, v); STREAM B(t, g, v); SELECT A.v FROM A [ROWS 2 SLIDE 2], B [ROWS 2 SLIDE 2];"
        self.place.write("both.cql", both)
        for command, status, note, outs in (
            ("run both.cql few.csv /dev/stdin <&-", 5, b"saber: right: read fault\n", {}),
            ("run sums.cql few.csv >&-", 6, b"saber: write fault\n", {}),
            ("many bad.csv sums.cql >&- 2>&-", 4, b"", {"sums.cql.out": b""}),
        ):
            ran = subprocess.run(["bash", "-c", f"bin/saber {command}"], cwd=self.place.at, capture_output=True, check=False, env=self.place.environment)
            self.assertEqual((ran.returncode, ran.stdout, ran.stderr, self.outs()), (status, b"", note, outs), command)

    def test_costs_little(self):
        def median(command):
            spent = []
            for _ in range(30):
                begun = time.perf_counter()
                subprocess.run(command, cwd=self.place.at, env=self.place.environment, capture_output=True, check=False)
                spent.append(time.perf_counter() - begun)
            return statistics.quantiles(spent, n=10)[0] * 1000

        given = ["run", "sums.cql", "few.csv"]
        bare, wrapped = median([self.place.bare, *given]), median([self.place.saber, *given])
        if os.getloadavg()[0] > os.cpu_count():
            self.skipTest(f"the machine is busy: {bare:.1f} ms bare, {wrapped:.1f} ms by the wrapper")
        self.assertLess(wrapped - bare, 15)


class Many(unittest.TestCase):
    """`many` where an answer would be written over what is there."""

    def setUp(self):
        self.place = trees.Installation(self)
        for name in ("a.cql", "b.cql", "folder/a.cql"):
            self.place.write(name, QUERIES["sums.cql"])
        self.place.write("few.csv", ROWS["few.csv"])

    def refused(self, what, *given, **how):
        before = self.all_files()
        ran = self.place.call("many", *given, **how)
        lines = ran.stderr.decode().splitlines()
        self.assertEqual((ran.returncode, ran.stdout, len(lines)), (2, b"", 1), ran.stderr)
        self.assertIn(what, lines[0])
        self.assertEqual(self.all_files(), before)

    def all_files(self):
        found = {}
        for folder, _, names in os.walk(self.place.at):
            for name in names:
                if os.path.exists(f"{folder}/{name}"):
                    with open(f"{folder}/{name}", "rb") as file:
                        found[f"{folder}/{name}"] = file.read()
        return found

    def test_the_file_of_rows(self):
        shutil.copy(f"{self.place.at}/few.csv", f"{self.place.at}/a.cql.out")
        os.symlink("a.cql.out", f"{self.place.at}/link.csv")
        os.link(f"{self.place.at}/a.cql.out", f"{self.place.at}/hard.csv")
        for left in ("a.cql.out", "./a.cql.out", f"{self.place.at}/a.cql.out", "folder/../a.cql.out", "link.csv", "hard.csv"):
            self.refused("query 1: its answer would be written over", left, "a.cql")
            self.refused("query 2: its answer would be written over", left, "b.cql", "a.cql", "--task", "4")
        with open(f"{self.place.at}/a.cql.out", "rb") as rows:
            self.refused("query 1: its answer would be written over", "/dev/stdin", "a.cql", stdin=rows)

    def test_the_answer_is_a_link_to_what_is_read(self):
        os.symlink("few.csv", f"{self.place.at}/a.cql.out")
        self.refused("over few.csv", "few.csv", "a.cql")

    def test_two_answers_in_one_file(self):
        os.symlink(self.place.at, f"{self.place.at}/here")
        for other in ("a.cql", "./a.cql", "here/a.cql", f"{self.place.at}/a.cql"):
            self.refused("queries 1 and 2", "few.csv", "a.cql", other)
        os.symlink("b.cql.out", f"{self.place.at}/a.cql.out")
        self.refused("queries 1 and 2", "few.csv", "a.cql", "b.cql")
        self.place.write("b.cql.out", "")
        self.refused("queries 1 and 3", "few.csv", "--final", "a.cql", "folder/a.cql", "b.cql")

    def test_a_query(self):
        self.place.write("a.cql.out", QUERIES["sums.cql"])
        self.refused("over a.cql.out", "few.csv", "a.cql", "a.cql.out")

    def test_others_are_run(self):
        self.place.write("a.cql.out", "of a run before")
        for given in (["a.cql", "b.cql"], ["a.cql", "folder/a.cql"], ["a.cql", "--task", "4", "--ring", "4"]):
            ran = self.place.call("many", "few.csv", *given)
            self.assertEqual((ran.returncode, ran.stderr), (0, b""), given)

    def test_words_that_are_no_command_are_the_programs(self):
        for given in (["few.csv", "a.cql", "a.cql", "--task", "0"], ["few.csv", *["a.cql"] * 9]):
            ran = self.place.call("many", *given)
            self.assertEqual((ran.returncode, ran.stderr.decode()), (2, words.USAGE))
