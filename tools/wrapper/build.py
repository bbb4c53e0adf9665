"""build.py WORDS..: prints the program of the repository's sources, which it compiles first where there is none.

Words that are no command are refused before that, as the program does: with its note, and here with the page of the command.
"""
import errno
import subprocess
import sys
import time

import builds
import compiling
import pages
import places
import prove
import quick
import words

LOG = f"{builds.TARGET}/quick.log"
# What is wrong with the tree or the machine, and not with the way of compiling.
CANNOT_WRITE = (errno.ENOSPC, errno.EDQUOT, errno.EROFS, errno.EACCES, errno.EPERM)


def refuse(given):
    """Tells of words that are no command."""
    sys.stderr.write(words.USAGE)
    sys.stderr.flush()
    places.explain(2, words.USAGE, given)
    return pages.refuse(given[0] if given else "")


def found(wanted, kit_name, seen):
    """The program of these sources, if there is one."""
    slot = builds.find(wanted, kit_name)
    return builds.choose(slot, seen) if slot else None


def compiled(wanted, kit_name, seen):
    """Compiles the program, or proves it where that fails."""
    try:
        return quick.compile_program(wanted, kit_name, seen)
    except compiling.Ended as why:
        places.say(f"the program can't be built: {why}; is memory short?")
        return None
    except (compiling.NotCompiled, subprocess.CalledProcessError, OSError) as why:
        if isinstance(why, OSError) and (why.filename == "rt" or why.errno in CANNOT_WRITE):
            raise
        told = str(why).strip() or type(why).__name__
        with open(LOG, "w", encoding="utf-8", errors="replace") as log:
            log.write(f"{told}\n")
        places.say(f"that failed ({told.splitlines()[0][:100]}, see {LOG}): all is proved and built instead, in twenty to fifty minutes")
        with builds.alone("proved"):
            return prove.prove(wanted, kit_name, seen)


def main():
    given = sys.argv[1:]
    seen, wanted, kit_name = time.time(), builds.stamp(), builds.kit()
    program = found(wanted, kit_name, seen)
    if not program and not words.is_command(given):
        return refuse(given)
    if not program:
        with builds.alone("quick"):
            # Another call may have built it meanwhile.
            program = found(wanted, kit_name, seen) or compiled(wanted, kit_name, seen)
    if not program:
        return places.NOT_BUILT
    print(program)
    return 0


if __name__ == "__main__":
    sys.exit(places.build(main))
