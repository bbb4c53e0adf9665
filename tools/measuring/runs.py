"""Runs of programs over generated rows: how many instructions, how long, how much memory."""
import hashlib
import os
import random
import re
import shutil
import signal
import subprocess
import threading
import time

import queries

# A run that takes longer is given up, in seconds.
MOST = 120


class Late(Exception):
    """No time is left."""


class Clock:
    """How much time is left of a whole measurement."""

    def __init__(self, minutes):
        self.ends = time.monotonic() + minutes * 60

    def left(self):
        left = self.ends - time.monotonic()
        if left <= 0:
            raise Late()
        return min(left, MOST)


class Rows:
    """Files of rows in a folder, each made once. Times rise by 0 or 1 a row; values are 0 to 999."""

    def __init__(self, folder, seed=1):
        self.folder, self.seed = folder, seed

    def made(self, name, count, line):
        path = f"{self.folder}/{name}"
        if not os.path.exists(path):
            drawn, now = random.Random(f"{self.seed} {name}").random, 0
            with open(path, "w", encoding="ascii") as file:
                for _ in range(count):
                    now += drawn() < 0.5
                    file.write(line(now, drawn))
        return path

    def of(self, query, count):
        """The files for a query, of so many rows each."""
        if query.groups:
            groups = query.groups
            return [self.made(f"{count}-{groups}.csv", count, lambda now, drawn: f"{now},{int(drawn() * groups)},{int(drawn() * 1000)}\n")]
        return [self.made(f"{count}-{side}.csv", count, lambda now, drawn: f"{now},{int(drawn() * 1000)}\n") for side in "ab"]


class Runner:
    """Runs programs, with the time that is left."""

    def __init__(self, folder, clock):
        self.folder, self.clock = folder, clock

    def words_of(self, program, query, files, *options):
        path = f"{self.folder}/{query.name.replace(' ', '_')}.cql"
        with open(path, "w", encoding="ascii") as file:
            file.write(query.text)
        return [program, "run", path, *files, *options]

    def instructions(self, words):
        """How many instructions a run takes."""
        told = f"{self.folder}/grind"
        grind = ["valgrind", "--tool=cachegrind", "--cache-sim=no", f"--cachegrind-out-file={told}", *words]
        try:
            ran = subprocess.run(grind, stdout=subprocess.DEVNULL, stderr=subprocess.PIPE, text=True, errors="replace", timeout=self.clock.left(), check=False)
        except subprocess.TimeoutExpired:
            raise Late() from None
        found = re.search(r"I\s+refs:\s+([\d,]+)", ran.stderr)
        if ran.returncode or not found:
            raise SystemExit(f"measure: {' '.join(words)}: {ran.stderr[-300:]}")
        return int(found[1].replace(",", ""))

    def begun(self, words, out):
        """Begins a run whose answer goes to this file, and gives the running process."""
        return subprocess.Popen(words, stdin=subprocess.DEVNULL, stdout=out, stderr=subprocess.DEVNULL, env={**os.environ, "LC_ALL": "C"})

    def seconds(self, words):
        """How long a run takes by the clock, and its answer's hash."""
        path = f"{self.folder}/answer"
        with open(path, "wb") as out:
            begun = time.perf_counter()
            process = self.begun(words, out)
            self.wait(process, words)
            took = time.perf_counter() - begun
        with open(path, "rb") as file:
            return took, hashlib.sha256(file.read()).hexdigest()

    def peak(self, words):
        """The greatest amount of memory that a run has had, in MB. A run that ends before it is seen is run again."""
        return next(seen for seen in iter(lambda: self.seen_peak(words), None) if seen)

    def seen_peak(self, words):
        """The same as far as it is seen, as the system tells it each millisecond."""
        with open(os.devnull, "wb") as out:
            process = self.begun(words, out)
            most, ends = 0, time.monotonic() + self.clock.left()
            while process.poll() is None:
                try:
                    with open(f"/proc/{process.pid}/status", encoding="ascii", errors="replace") as file:
                        found = re.search(r"VmHWM:\s+(\d+)", file.read())
                except OSError:
                    found = None
                most = max(most, int(found[1]) if found else 0)
                if time.monotonic() > ends:
                    process.kill()
                    process.wait()
                    raise Late()
                time.sleep(0.001)
            self.wait(process, words)
        return most / 1024

    def wait(self, process, words):
        """Waits for the end of a run, which is killed where no time is left. (A wait with a timeout looks again only each 50 ms.)"""
        late = threading.Timer(min(max(self.clock.ends - time.monotonic(), 0), MOST), process.kill)
        late.start()
        status = process.wait()
        late.cancel()
        if status == -signal.SIGKILL:
            raise Late()
        if status:
            raise SystemExit(f"measure: {' '.join(words)[:200]}: status {status}")


def others():
    """What else answers the same, where it is there: its name, and the words by which it does."""
    return [(name, words) for name, words in (("awk", queries.awk), ("sqlite3", queries.sqlite)) if shutil.which(name)]
