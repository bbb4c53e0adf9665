"""python3 tools/test [--program PATH] [TOPIC ..]: tries what stands round the proved program, without any proof, in a minute or two.

Each topic is a file of unittest beside this one, tried in a process of its own, which has the program's path in SABER_PROGRAM; a topic
that isn't here is told and left out. Without PATH and SABER_PROGRAM it is the program that ./saber runs, which is compiled first
where there is none. What a machine lacks for a test is told by a line. The last line is 'N passed, M failed'.
"""
import argparse
import os
import signal
import subprocess
import sys
import time
import unittest
from concurrent.futures import ThreadPoolExecutor

HERE = os.path.dirname(os.path.abspath(__file__))
TOP = os.path.dirname(os.path.dirname(HERE))
# A topic that takes longer has failed, in seconds.
MOST = 900
TOPICS = ["judged_words", "wrapper", "building", "terminal", "cases", "documents", "sources", "hints", "package", "rows", "performance", "faults", "races"]


class Told(unittest.TextTestResult):
    """Counts what passed, too."""

    passed = 0

    def addSuccess(self, test):
        super().addSuccess(test)
        self.passed += 1


def try_topic(name):
    """Tries a topic in this process, and prints how many passed and failed, and what was left out and why."""
    sys.path.insert(0, HERE)
    tests = unittest.defaultTestLoader.loadTestsFromName(name)
    ran = unittest.TextTestRunner(stream=sys.stderr, resultclass=Told, verbosity=0).run(tests)
    for test, why in ran.skipped:
        print(f"{name}: left out: {test.id().split('.')[-1]}: {why}")
    failed = len(ran.failures) + len(ran.errors) + len(ran.unexpectedSuccesses)
    print(f"{ran.passed} {failed + (ran.testsRun == 0)}")


def call_topic(name, program):
    """Tries a topic in a process of its own, and returns how many passed and failed, and what is said of it."""
    if not os.path.exists(f"{HERE}/{name}.py"):
        return 0, 0, f"{name}: not here"
    begun = time.monotonic()
    command = [sys.executable, "-B", __file__, "--in-process", name]
    given = {"env": {**os.environ, "SABER_PROGRAM": program}, "cwd": TOP, "stdin": subprocess.DEVNULL, "text": True, "errors": "replace"}
    ran = subprocess.Popen(command, stdout=subprocess.PIPE, stderr=subprocess.PIPE, start_new_session=True, **given)
    try:
        out, complained = ran.communicate(timeout=MOST)
    except subprocess.TimeoutExpired:
        os.killpg(ran.pid, signal.SIGKILL)
        out, complained = "", f"it had not ended after {MOST} s"
        ran.wait()
    *lines, last = out.splitlines() or [""]
    counts = last.split()
    if ran.returncode or len(counts) != 2:
        lines, counts = [*lines, last], ["0", "1"]
    passed, failed = map(int, counts)
    told = [complained.rstrip("\n")] * (failed > 0) + [*lines, f"{name}: {passed} passed, {failed} failed, {time.monotonic() - begun:.0f} s"]
    return passed, failed, "\n".join(told)


def built():
    """The program that ./saber runs, compiled where there is none."""
    ran = subprocess.run([sys.executable, "-B", f"{TOP}/tools/wrapper/build.py", "demo", "0", "0"], stdout=subprocess.PIPE, text=True, check=False)
    if ran.returncode:
        sys.exit(ran.returncode)
    return ran.stdout.strip()


def main():
    words = argparse.ArgumentParser(description=__doc__, formatter_class=argparse.RawDescriptionHelpFormatter)
    words.add_argument("--program", metavar="PATH")
    words.add_argument("--in-process", metavar="TOPIC", help=argparse.SUPPRESS)
    words.add_argument("topics", metavar="TOPIC", nargs="*")
    given = words.parse_args()
    if given.in_process:
        return try_topic(given.in_process)
    program = os.path.abspath(given.program or os.environ.get("SABER_PROGRAM") or built())
    sums = [0, 0]
    names = given.topics or TOPICS
    with ThreadPoolExecutor(min(len(os.sched_getaffinity(0)), 3)) as pool:
        for passed, failed, told in pool.map(lambda name: call_topic(name, program), names):
            print(told, flush=True)
            sums[0] += passed
            sums[1] += failed
    print(f"{sums[0]} passed, {sums[1]} failed")
    return 1 if sums[1] else 0


if __name__ == "__main__":
    sys.exit(main())
