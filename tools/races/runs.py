"""A run of a watched program: drawn from a seed and its number, tried, and compared with the reference without threads."""
import glob
import os
import random
import select
import subprocess
import tempfile
from typing import NamedTuple

import forms
import reports

TASKS = [1, 1, 2, 3, 5, 8, 16, 32, 64]
RINGS = range(1, 9)
THREADS = range(1, 9)
# How often each program is drawn: ThreadSanitizer is the one that sees races.
KINDS = ["thread", "thread", "thread", "address"]
SCHEDULES = {
    "machine": [],
    "yields": ["{seed}"],
    "walk": ["{seed}:1", "{seed}:2", "{seed}:4", "{seed}:16", "{seed}:64"],
    "priorities": [f"{{seed}}:{falls}:{among}" for falls in (0, 1, 2, 3, 5) for among in (30, 100, 300, 1000, 5000)],
}
# What a run whose reader goes early may end with: all was written, a refused line, or nobody reads.
CUT = (0, 4, 6)
OPTIONS = "log_path={folder}/report:exitcode=66:symbolize=0"
MORE = {"TSAN_OPTIONS": ":history_size=5", "ASAN_OPTIONS": ":detect_leaks=0"}


class Run(NamedTuple):
    """What is tried."""
    number: int
    form: str
    kind: str
    schedule: str
    how: str
    case: forms.Case
    sizes: list
    threads: int

    def words(self):
        return [*self.case.words, *self.sizes, "--threads", str(self.threads)]


class Result(NamedTuple):
    """How a run ended: "" where it was right, what was wrong else, and what is told of it."""
    run: Run
    wrong: str
    told: str


class NoEnd(Exception):
    """A run was still going on when patience was over."""


def draw(seed, number, only_forms, only_schedules, kinds):
    """The run of a number."""
    chance = random.Random(f"{seed}/{number}")
    form, schedule, kind = chance.choice(only_forms), chance.choice(only_schedules), chance.choice(kinds)
    how = ""
    if SCHEDULES[schedule]:
        how = f"{schedule}:{chance.choice(SCHEDULES[schedule]).format(seed=chance.randrange(1 << 30))}"
    sizes = ["--task", str(chance.choice(TASKS)), "--ring", str(chance.choice(RINGS))]
    return Run(number, form, kind, schedule, how, forms.draw(chance, forms.FORMS[form]), sizes, chance.choice(THREADS))


def read(name):
    try:
        with open(name, "rb") as file:
            return file.read()
    except OSError:
        return None


def read_a_byte(ran, patience):
    """Reads the first byte of what a run writes, and goes."""
    if not select.select([ran.stdout], [], [], patience)[0]:
        ran.kill()
        raise NoEnd
    os.read(ran.stdout.fileno(), 1)
    ran.stdout.close()
    ran.stdout = None


def call(program, words, folder, case, environment, patience):
    """Runs a program in a folder: its status, output, note and what it wrote into files."""
    for name in case.written:
        if os.path.exists(f"{folder}/{name}"):
            os.remove(f"{folder}/{name}")
    with subprocess.Popen([program, *words], cwd=folder, env=environment, stdin=subprocess.DEVNULL, stdout=subprocess.PIPE, stderr=subprocess.PIPE) as ran:
        if case.is_cut:
            read_a_byte(ran, patience)
        try:
            output, note = ran.communicate(timeout=patience)
        except subprocess.TimeoutExpired as late:
            ran.kill()
            raise NoEnd from late
    return ran.returncode, output, note, [read(f"{folder}/{name}") for name in case.written]


def environment_of(run, folder):
    """The environment of a watched run."""
    found = {name: value for name, value in os.environ.items() if not name.startswith("SABER_")}
    found["SABER_PLACES"] = f"{folder}/places"
    if run.how:
        found["SABER_SCHEDULE"] = run.how
    for name, more in MORE.items():
        found[name] = OPTIONS.format(folder=folder) + more
    return found


def difference(run, got, wanted):
    """What differs between two ends of a run."""
    if run.case.is_cut:
        return "" if got[0] in CUT else f"status {got[0]}, {got[2][:200]}"
    for name, one, other in zip(("status", "output", "note", "files"), got, wanted):
        if one != other:
            return f"{name} {str(one)[:200]}, and without threads {str(other)[:200]}"
    return ""


def perform(run, program, reference, patience):
    """Tries a run, and returns how it ended."""
    with tempfile.TemporaryDirectory(prefix="races-") as folder:
        for name, text in run.case.files.items():
            with open(f"{folder}/{name}", "w", encoding="utf-8") as file:
                file.write(text)
        try:
            wanted = None if run.case.is_cut else call(reference, [*run.case.words, *run.sizes, "--threads", "0"], folder, run.case, None, patience)
            wrong = difference(run, call(program, run.words(), folder, run.case, environment_of(run, folder), patience), wanted)
        except NoEnd:
            return Result(run, f"no end in {patience} s", reports.standing(program, f"{folder}/places"))
        found = [text for text in map(read, sorted(glob.glob(f"{folder}/report*"))) if text]
    if found:
        return Result(run, "a report", reports.told(program, found[0].decode(errors="replace")))
    return Result(run, wrong and "another end", wrong)
