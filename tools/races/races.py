#!/usr/bin/env python3
"""races.py [--runs N | --seconds N] [--seed S] [..]: looks for races in the compiled program, by ThreadSanitizer and AddressSanitizer.

First it shows that it finds races: each kind that building.py can plant into a scratch copy must be reported. Then it runs every form
of query on random rows, with 1 to 8 threads, tasks of 1 to 64 rows and rings of 1 to 8, under the machine's schedule, random yields,
random walks and priorities that change, and compares each end, by its bytes, with that of the program without threads.

What is wrong is told with the sources of its functions and the words that run it again. Building takes some minutes and 4 GB, once for
each state of the sources. Nothing is proved. The status is 1 where something was wrong, 2 where the machine lacks what is needed.
"""
import argparse
import collections
import os
import sys
import tempfile
import time
from concurrent.futures import FIRST_COMPLETED, ThreadPoolExecutor, wait

sys.dont_write_bytecode = True
import building
import forms
import runs

# So many runs may pass until a planted race is reported.
PLANTED_RUNS = 200
PLANTED_SEED = "planted"
MOST_WRONG = 20
# A line is printed behind each so many runs.
TOLD = 1000


def words():
    """The words of the command line."""
    it = argparse.ArgumentParser(description=__doc__, formatter_class=argparse.RawDescriptionHelpFormatter)
    it.add_argument("--runs", type=int, default=20000, metavar="N", help="at most so many runs (20,000)")
    it.add_argument("--seconds", type=float, default=1e9, metavar="N", help="no run is begun later, planted races with them")
    it.add_argument("--seed", default="1", metavar="S", help="what runs are drawn from (1)")
    it.add_argument("--first", type=int, default=0, metavar="N", help="the number of the first run (0)")
    it.add_argument("--form", action="append", choices=list(forms.FORMS), help="only this form (may be given again)")
    it.add_argument("--schedule", action="append", choices=list(runs.SCHEDULES), help="only this schedule (may be given again)")
    it.add_argument("--kind", choices=list(building.WORDS), help="only this sanitizer")
    it.add_argument("--plant", action="append", choices=building.PLANTS, help="plants only this race (may be given again)")
    it.add_argument("--no-plants", action="store_true", help="plants none, as to run one run again")
    it.add_argument("--program", metavar="PATH", help="the program to compare with (the one that ./saber runs)")
    it.add_argument("--jobs", type=int, default=len(os.sched_getaffinity(0)), metavar="N", help="so many runs at once (one a processor)")
    it.add_argument("--patience", type=float, default=60, metavar="N", help="seconds that a run may take (60)")
    it.add_argument("--level", default="2", choices=list("0123s"), help="how the module is optimized, as -O (2)")
    it.add_argument("--ready", action="store_true", help="tells what a run lacks on this machine, and builds and runs nothing")
    it.add_argument("--dry", action="store_true", help="prints the runs, and builds and runs nothing")
    return it.parse_args()


def again(given, run):
    """The words that try a run again."""
    asked = [("--form", it) for it in given.form or []] + [("--schedule", it) for it in given.schedule or []]
    asked += [(name, it) for name, it in (("--kind", given.kind), ("--level", given.level), ("--program", given.program)) if it]
    return " ".join(["tools/races/races.py --no-plants --runs 1", f"--seed {given.seed} --first {run.number}", *[f"{name} '{it}'" for name, it in asked]])


def tell(given, result):
    """Tells a run that was wrong."""
    run = result.run
    print(f"WRONG: {result.wrong}: {run.form}, {run.kind}, {run.how or 'the machine'}: saber {' '.join(run.words())}")
    print(f"  again: {again(given, run)}")
    print("".join(f"  {line}\n" for line in result.told.splitlines()), end="", flush=True)


def results(given, numbers, programs, reference, until):
    """The ends of the runs of these numbers, in the order in which they come, none begun behind a time."""
    with ThreadPoolExecutor(given.jobs) as pool:
        pending = set()
        for number in numbers:
            if time.monotonic() > until:
                break
            run = runs.draw(given.seed, number, *chosen(given))
            pending.add(pool.submit(runs.perform, run, programs[run.kind], reference, given.patience))
            if len(pending) >= 2 * given.jobs:
                ready, pending = wait(pending, return_when=FIRST_COMPLETED)
                yield from (it.result() for it in ready)
        yield from (it.result() for it in pending)


def is_found(given, what, reference, until):
    """Whether a planted race is reported, in a scratch copy of the program."""
    asked = argparse.Namespace(**{**vars(given), "seed": PLANTED_SEED, "form": None, "schedule": ["machine", "yields"], "kind": "thread"})
    with tempfile.TemporaryDirectory(prefix="races-planted-") as scratch:
        program = building.planted(scratch, given.level, what)
        for number, result in enumerate(results(asked, range(PLANTED_RUNS), {"thread": program}, reference, until), 1):
            if result.wrong == "a report":
                head = next((line.strip() for line in result.told.splitlines() if "crates/" in line), "")
                print(f"planted: {what}: reported in run {number}, {result.run.form}: {head}", flush=True)
                return True
    print(f"planted: {what}: NOT reported in {PLANTED_RUNS} runs", flush=True)
    return False


def table(counts):
    """The runs by form and schedule."""
    names = list(runs.SCHEDULES)
    rows = [["form", *names]] + [[form, *[f"{counts[form, name]:,}" for name in names]] for form in forms.FORMS]
    return "\n".join(f"{row[0]:<18}" + "".join(f"{it:>11}" for it in row[1:]) for row in rows)


def search(given, programs, reference):
    """Tries all runs, and returns how many were wrong."""
    begun, counts, kinds, wrong = time.monotonic(), collections.Counter(), collections.Counter(), collections.Counter()
    numbers = range(given.first, given.first + given.runs)
    for result in results(given, numbers, programs, reference, begun + given.seconds):
        counts[result.run.form, result.run.schedule] += 1
        kinds[result.run.kind] += 1
        if result.wrong:
            wrong[result.wrong] += 1
            tell(given, result)
        if counts.total() % TOLD == 0:
            print(f"{counts.total():,} runs, {wrong.total()} wrong, {time.monotonic() - begun:.0f} s", flush=True)
        if wrong.total() >= MOST_WRONG:
            print(f"{MOST_WRONG} are enough")
            break
    print(table(counts))
    ends = ", ".join(f"{count} {what}" for what, count in wrong.items()) or "none wrong"
    print(f"races: {counts.total():,} runs of seed {given.seed} ({kinds['thread']:,} thread, {kinds['address']:,} address), {ends}, "
          f"{time.monotonic() - begun:.0f} s")
    return wrong.total()


def chosen(given):
    """What runs are drawn from."""
    return given.form or list(forms.FORMS), given.schedule or list(runs.SCHEDULES), [given.kind] if given.kind else runs.KINDS


def show(given):
    """Prints the runs."""
    for number in range(given.first, given.first + given.runs):
        run = runs.draw(given.seed, number, *chosen(given))
        print(f"{number}: {run.form}, {run.kind}, {run.how or 'the machine'}: {' '.join(run.words())}: {run.case.files}")


def try_all(given):
    """Builds what is watched, shows that planted races are found, and looks for others."""
    begun = time.monotonic()
    plants = [] if given.no_plants else given.plant or building.PLANTS
    programs = building.programs(given.level, {*chosen(given)[2], *["thread"] * bool(plants)})
    reference = os.path.abspath(given.program or os.environ.get("SABER_PROGRAM") or building.reference())
    built = time.monotonic()
    print(f"built in {built - begun:.0f} s", flush=True)
    missed = [what for what in plants if not is_found(given, what, reference, built + given.seconds)]
    given.seconds -= time.monotonic() - built
    return 1 if search(given, programs, reference) or missed else 0


def main():
    given = words()
    try:
        if given.dry:
            return show(given)
        return building.be_ready(given.level) if given.ready else try_all(given)
    except (building.Lacks, building.compiling.NotCompiled, building.compiling.Ended) as why:
        print(f"races: {why}", file=sys.stderr)
        return 2


if __name__ == "__main__":
    sys.exit(main())
