#!/usr/bin/env python3
"""faults.py [--seconds N] [--seed S] [--program PATH] [PART ..]: tries the program where files, outputs, memory, threads or rows fail it.

Each run must end with the status, text and note that docs/RULES.md has for it, or, where the system refuses something at an unknown
place, with the whole answer or a front of it and the note of what was wanted. Nothing is built, and nothing proved. The parts, in turn:

  ends      outputs, errors and inputs that are closed, full, folders, or gone early
  limits    fields, lines, options and threads at the last value that may be, and one behind it
  system    limits of memory and of open files, and threads that can't be had
  sizes     tools/any-sizes: random queries in tasks of several sizes, drawn from the seed
  malice    tools/malice: files, queries and words of bad shapes
  memory    tools/refuse-memory: each allocation refused in turn
  large     100,000,000 rows from a pipe, and 300,000 groups, with memory watched

With --seconds the first three are tried whole, then random queries and a pipe of fewer rows, as many as the time allows; malice and
memory only where they are named. The status is 1 where something was wrong.
"""
import argparse
import os
import subprocess
import sys
import time

sys.dont_write_bytecode = True
import large
import parts

HERE = os.path.dirname(os.path.abspath(__file__))
TOP = os.path.dirname(os.path.dirname(HERE))
SCRIPTS = {
    "sizes": lambda program, given: [sys.executable, f"{TOP}/tools/any-sizes/any_sizes.py", program, str(given.queries), str(given.seed)],
    "malice": lambda program, given: [f"{TOP}/tools/malice", program],
    "memory": lambda program, given: [f"{TOP}/tools/refuse-memory"],
}
PARTS = ["ends", "limits", "system", "sizes", "malice", "memory", "large"]
# A second has about so many random queries, each of several runs, and so many rows.
QUERIES_A_SECOND, ROWS_A_SECOND = 4, 200_000


def words():
    """The words of the command line."""
    it = argparse.ArgumentParser(description=__doc__, formatter_class=argparse.RawDescriptionHelpFormatter)
    it.add_argument("--seconds", type=float, metavar="N", help="about so long")
    it.add_argument("--seed", type=int, default=1, metavar="S", help="what random queries are drawn from (1)")
    it.add_argument("--program", metavar="PATH", help="the program to try (the one that ./saber runs)")
    it.add_argument("--queries", type=int, default=250, metavar="N", help="so many random queries, where no seconds are given (250)")
    it.add_argument("--rows", type=int, default=100_000_000, metavar="N", help="so many rows from a pipe, where no seconds are given")
    it.add_argument("parts", metavar="PART", nargs="*", choices=[*PARTS, []], help="only these")
    return it.parse_args()


def script(name, program, given):
    """Calls a script, prints what it says is wrong and its last line, and returns whether nothing was."""
    command = SCRIPTS[name](program, given)
    ran = subprocess.run(command, env={**os.environ, "SABER_PROGRAM": program}, stdin=subprocess.DEVNULL, stdout=subprocess.PIPE, text=True, check=False)
    lines = ran.stdout.splitlines()
    for line in lines:
        if "WRONG" in line or line.startswith("differs"):
            print(line)
    print(f"{name}: status {ran.returncode}: {lines[-1] if lines else ''}", flush=True)
    return ran.returncode == 0


def try_part(name, program, given):
    """Tries a part, and returns how many runs were wrong of how many."""
    if name in parts.PARTS:
        return parts.PARTS[name](program)
    if name == "large":
        return large.try_rows(program, given.rows)
    return int(not script(name, program, given)), 1


def chosen(given):
    """The parts to try; within so many seconds those that fit, and of the random ones as many as the time allows."""
    if given.seconds is None:
        return given.parts or PARTS
    given.queries = max(5, int(given.seconds / 3 * QUERIES_A_SECOND))
    given.rows = max(100_000, int(given.seconds / 3 * ROWS_A_SECOND))
    return given.parts or ["ends", "limits", "system", "sizes", "large"]


def main():
    given = words()
    program = given.program or os.environ.get("SABER_PROGRAM")
    if not program:
        command = [sys.executable, "-B", f"{TOP}/tools/wrapper/build.py", "demo", "0", "0"]
        program = subprocess.run(command, stdout=subprocess.PIPE, text=True, check=True).stdout.strip()
    program, begun, sums = os.path.abspath(program), time.monotonic(), [0, 0]
    for name in chosen(given):
        wrong, tried = try_part(name, program, given)
        sums = [sums[0] + wrong, sums[1] + tried]
    print(f"faults: {sums[1]:,} tried, {sums[0]} wrong, seed {given.seed}, {time.monotonic() - begun:.0f} s")
    return 1 if sums[0] else 0


if __name__ == "__main__":
    sys.exit(main())
