#!/usr/bin/env python3
"""gate_times.py: runs the whole gate where it is called, every proof from nothing, and then prints what each crate cost, worst first.

Of each crate: its proof, the proof of its tests, all checks of its edits with how many edits there are, and what that comes to, in
processor seconds; the most memory that one of its checks had, in GB; and by the clock of the run, in seconds, when its proof began and
ended. Run it alone on the machine. Where the kit keeps what earlier runs proved, the gate is `rt ci --anew`, else `rt ci`. It asks the
system once a second, so a check's last second may be missing.
"""
import collections
import glob
import os
import re
import subprocess
import sys
import time

TICK = os.sysconf("SC_CLK_TCK")
# How often memory is looked at, in seconds: it takes the system some time for a large process.
MEMORY_EVERY = 10
KINDS = ("proof", "tests", "edits")


def read(path):
    try:
        with open(path, errors="replace") as it:
            return it.read()
    except OSError:
        return ""


def processes():
    """Returns of each process its parent, when it began, and the processor seconds that it and its ended children took."""
    found = {}
    for pid in filter(str.isdigit, os.listdir("/proc")):
        fields = read(f"/proc/{pid}/stat").rpartition(")")[2].split()
        if len(fields) > 14:
            found[int(pid)] = int(fields[1]), fields[19], sum(map(int, fields[11:15])) / TICK
    return found


def task_of(pid):
    """Returns the crate and the kind of task that a process checks, if it is one of the gate's checks."""
    words = read(f"/proc/{pid}/cmdline").split("\0")
    if not words[0].endswith("/rattle") or len(words) < 2 or words[1] not in ("build", "check") or "--crate-name" not in words:
        return None
    crate = words[words.index("--crate-name") + 1]
    if "--test" in words:
        return crate, "tests"
    # an edit is checked in a copy of the crate, over what the checks of the edits before it kept, or alone
    return crate, "edits" if "--incremental" in words or is_copy(pid) else "proof"


def is_copy(pid):
    """Tells whether a process works in the copy that `rt` makes of a crate to try an edit."""
    try:
        return os.path.basename(os.readlink(f"/proc/{pid}/cwd")).startswith("rt-edit-")
    except OSError:
        return False


def anew():
    """Returns the word by which this kit's gate takes nothing from earlier runs, if it has one."""
    help = subprocess.run(["rt", "help"], stdout=subprocess.PIPE, stderr=subprocess.STDOUT, text=True, errors="replace").stdout
    return ["--anew"] if "--anew" in help else []


def tree(pid, found):
    """Returns the process and all that it began."""
    own = [pid]
    for it in own:
        own += [child for child, (parent, *_) in found.items() if parent == it]
    return own


def memory_of(pids):
    """Returns the memory of some processes in GB, what they share counted once."""
    kilobytes = (re.search(r"^Pss:\s+(\d+)", read(f"/proc/{it}/smaps_rollup"), re.M) for it in pids)
    return sum(int(it[1]) for it in kilobytes if it) / 1e6


class Times:
    """What the checks of a run took so far, by process."""

    def __init__(self):
        self.task, self.seconds, self.memory, self.clock, self.looks = {}, {}, {}, {}, 0

    def look(self, top, now):
        found, self.looks = processes(), self.looks + 1
        # (a number is given anew once its process has ended)
        name = lambda pid: (pid, found[pid][1])
        for pid in tree(top, found)[1:]:
            check = name(pid)
            task = self.task.get(check) or task_of(pid)
            parent = found[pid][0]
            # a check begins others of its own name: those are its parts
            if task and not (parent in found and name(parent) in self.task):
                self.task[check] = task
                own = tree(pid, found)
                self.seconds[check] = max(self.seconds.get(check, 0), sum(found[it][2] for it in own))
                self.clock[check] = self.clock.get(check, (now,))[0], now
                if self.looks % MEMORY_EVERY == 1:
                    self.memory[check] = max(self.memory.get(check, 0), memory_of(own))

    def table(self):
        taken, peak, proved = collections.defaultdict(float), collections.defaultdict(float), {}
        for check, (crate, kind) in self.task.items():
            taken[crate, kind] += self.seconds[check]
            peak[crate] = max(peak[crate], self.memory.get(check, 0))
            if kind == "proof":
                begun, ended = proved.get(crate, self.clock[check])
                proved[crate] = min(begun, self.clock[check][0]), max(ended, self.clock[check][1])
        whole = {it: sum(taken[it, kind] for kind in KINDS) for it in peak}
        yield "| Crate | proof | tests | edits | of them | sum | GB | from | to |"
        yield "|---|--:|--:|--:|--:|--:|--:|--:|--:|"
        for crate in sorted(whole, key=whole.get, reverse=True):
            proof, tests, edits = (round(taken[crate, it]) for it in KINDS)
            begun, ended = proved.get(crate, (0, 0))
            number = len(glob.glob(f"crates/{crate}/must-fail/*.edit"))
            yield f"| {crate} | {proof} | {tests} | {edits} | {number} | {round(whole[crate])} | {peak[crate]:.1f} | {round(begun)} | {round(ended)} |"
        proof, tests, edits = (round(sum(taken[crate, it] for crate in peak)) for it in KINDS)
        yield f"| all | {proof} | {tests} | {edits} | | {round(sum(whole.values()))} | | | |"


def main():
    times, begun = Times(), time.monotonic()
    run = subprocess.Popen(["rt", "ci", *anew()])
    while run.poll() is None:
        times.look(run.pid, time.monotonic() - begun)
        time.sleep(1)
    print(*times.table(), sep="\n")
    print(f"{round(time.monotonic() - begun)} s by the clock, {len(os.sched_getaffinity(0))} processors")
    return run.returncode


if __name__ == "__main__":
    sys.exit(main())
