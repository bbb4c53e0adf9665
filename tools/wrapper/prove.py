"""prove.py: proves all crates of the program `saber` and builds it from what is proved, crates that don't stand on one another side by side.

Tells on standard error which crates are at work and how many are left. What was built stays, so that a build which was
interrupted goes on where it was. If a check was killed for want of memory, what is left is built one at a time.
"""
import os
import re
import shutil
import subprocess
import sys
import time

import builds
import compiling
import pages
import places

PROGRAM = f"{places.TOP}/crates/saber"
LOG = f"{builds.TARGET}/prove.log"
# Memory for a check, in kB; the largest crates take as much.
NEED = 3_000_000


def crates_below(top):
    """Returns what each crate of the program stands on, itself and through others, lowest first."""
    deps = compiling.crates(places.TOP)
    found = {it: set(compiling.below(deps, it)) for it in [*compiling.below(deps, top), top]}
    return dict(sorted(found.items(), key=lambda it: len(it[1])))


def at_once():
    """Returns how many crates are built at once: as many as there are processors, and memory holds."""
    free = int(re.search(r"MemAvailable:\s+(\d+)", places.text_of("/proc/meminfo"))[1])
    return max(1, min(len(os.sched_getaffinity(0)), free // NEED))


def check(below, jobs, log):
    """Proves all crates, so many at once, and returns the status and whether a check was killed."""
    done, killed = set(), False

    def tell(what=""):
        # rt begins the crates in this order, each once those below it are done
        begun = [it for it in below if it not in done][:jobs]
        at_work = " ".join(it for it in begun if below[it] <= done)
        places.say(f"proving: {what}{len(below) - len(done)} of {len(below)} crates left, at work: {at_work}")

    command = ["rt", "all", "check", "--jobs", str(jobs)]
    tell()
    ran = subprocess.Popen(command, cwd=PROGRAM, stdin=subprocess.DEVNULL, stdout=subprocess.PIPE, stderr=subprocess.STDOUT, text=True, errors="replace")
    for line in ran.stdout:
        log.write(line)
        ended = re.fullmatch(r"== (\w+)\n", line)
        killed = killed or line.endswith(": failed (-9)\n")
        if ended and ended[1] in below and ended[1] not in done:
            done.add(ended[1])
            if len(done) < len(below):
                tell(f"{ended[1]} is done, ")
    return ran.wait(), killed


def check_and_build(below):
    """Proves all crates and builds the program. Tells what went wrong, and returns whether nothing did."""
    with open(LOG, "w", encoding="utf-8", buffering=1) as log:
        status, killed = check(below, at_once(), log)
        if status and killed:
            places.say("a check lacked memory: what is left is proved one at a time")
            status, _ = check(below, 1, log)
        if status:
            places.say(f"the crates were not all proved, see {LOG}")
            return False
        log.flush()
        subprocess.call(["rt", "run"], cwd=PROGRAM, stdin=subprocess.DEVNULL, stdout=log, stderr=subprocess.STDOUT)
    if not os.access(f"{PROGRAM}/out/saber", os.X_OK):
        places.say(f"the program was not built, see {LOG}")
        return False
    os.remove(LOG)
    return True


def prove(wanted, kit_name, seen):
    """Proves and builds the program of these sources, and returns it, or nothing where that failed."""
    below = crates_below("saber")
    if not check_and_build(below):
        return None
    if builds.stamp() != wanted:
        places.say("the sources changed while they were proved: call ./saber prove again")
        return None
    new = f"{builds.TARGET}/saber.proved"
    shutil.copyfile(f"{PROGRAM}/out/saber", new)
    os.chmod(new, 0o755)
    program = builds.put("proved", new, wanted, kit_name, seen)
    places.say(f"all {len(below)} crates are proved, and the program is built of them")
    return program


def main():
    """Proves what isn't proved yet."""
    seen, wanted, kit_name = time.time(), builds.stamp(), builds.kit()
    with builds.alone("proved"):
        if builds.is_of(f"{builds.TARGET}/proved", wanted, kit_name):
            builds.choose("proved", seen)
            places.say("all crates are proved, and the program is built of them")
            return 0
        return 0 if prove(wanted, kit_name, seen) else places.NOT_BUILT


if __name__ == "__main__":
    if sys.argv[1:]:
        sys.exit(pages.refuse("prove"))
    sys.exit(places.build(main))
