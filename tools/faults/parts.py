"""The parts that are tables: ends, limits, and what the system refuses. Each returns how many runs were wrong, and of how many."""
import os
import resource
import shutil
import subprocess
import tempfile

import cases
import running

HERE = os.path.dirname(os.path.abspath(__file__))
# Address space that a run may have, in steps from where the program can just be loaded.
MEMORY_STEPS, STEP = 24, 256 << 10
# Open files that a run may have: with fewer it isn't loaded.
FILES = range(4, 10)


def tell(part, tried, wrong):
    """The last line of a part."""
    for name, got in wrong:
        print(f"WRONG: {part}: {name}: {str(got)[:300]}")
    print(f"{part}: {tried} runs, {len(wrong)} wrong", flush=True)
    return len(wrong), tried


def try_table(part, program, table):
    """Tries each case of a table in a folder of its own."""
    wrong = []
    for case in table:
        with tempfile.TemporaryDirectory(prefix="faults-") as folder:
            running.put_files(folder)
            whole = cases.SUMS if case.text == cases.FRONT else ""
            if case.way == "reader goes":
                got = running.call_and_go(program, case.words, folder)
            else:
                with running.way_of(case)(folder) as how:
                    got = running.call(program, case.words, folder, **how)
        if not running.fits(case, got, whole):
            wrong.append((case.name, got))
    return tell(part, len(table), wrong)


def answers(folder, words, program, **how):
    """The end of a run, and the files that it wrote."""
    for name in ("sums.out", "sums2.out"):
        if os.path.exists(f"{folder}/{name}"):
            os.remove(f"{folder}/{name}")
    status, text, note = running.call(program, words, folder, **how)
    files = []
    for name in ("sums.out", "sums2.out"):
        if os.path.exists(f"{folder}/{name}"):
            with open(f"{folder}/{name}", encoding="utf-8") as file:
                files.append(file.read())
    return status, [text, *files], note


def is_whole_or_front(got, whole, statuses):
    """Whether a run ended with the whole answer, or with one of these statuses, its note, and fronts of the answer."""
    if got == whole:
        return True
    status, texts, note = got
    fronts = len(texts) <= len(whole[1]) and all(known.startswith(text) for text, known in zip(texts, whole[1]))
    return status in statuses and fronts and all(running.is_note(f"{line}\n", status) for line in note.splitlines()) and note != ""


def least_space(program, folder):
    """The least address space, in steps, in which the program is loaded and checks a query."""
    for most in range(STEP, 256 << 20, STEP):
        if running.call(program, "check sums", folder, **running.limited(resource.RLIMIT_AS, most))[0] == 0:
            return most
    raise AssertionError("the program needs over 256 MB to check a query")


def refused_threads(folder):
    """What is loaded before the system's library to refuse threads, where the machine has a compiler."""
    made = f"{folder}/threads.so"
    if not shutil.which("cc"):
        return None
    subprocess.run(["cc", "-O1", "-shared", "-fPIC", f"{HERE}/threads.c", "-o", made, "-ldl"], check=True)
    return made


def tries_of_system(program, folder):
    """Each limit: its name, the words of the run, how it is run, and the statuses that it may have beside its own answer."""
    least, refuses = least_space(program, folder), refused_threads(folder)
    if not refuses:
        print("system: left out: threads that can't be had: there is no cc")
    for name, words in cases.COMMANDS.items():
        for step in range(MEMORY_STEPS):
            yield f"{name} in {(least + step * STEP) >> 10} KB", words, running.limited(resource.RLIMIT_AS, least + step * STEP), (8,)
        for count in FILES:
            yield f"{name} with {count} open files", words, running.limited(resource.RLIMIT_NOFILE, count), (5, 6)
        for number in range(1, 6 if refuses else 1):
            yield f"{name} without thread {number}", words, {"env": {**os.environ, "LD_PRELOAD": refuses, "NO_THREAD": str(number)}}, ()


def try_system(program):
    """Limits of memory and of open files, and threads that can't be had."""
    wrong, tried = [], 0
    with tempfile.TemporaryDirectory(prefix="faults-") as folder:
        running.put_files(folder)
        wholes = {words: answers(folder, words, program) for words in cases.COMMANDS.values()}
        for name, words, how, statuses in tries_of_system(program, folder):
            got, tried = answers(folder, words, program, **how), tried + 1
            if not is_whole_or_front(got, wholes[words], statuses):
                wrong.append((name, got))
    return tell("system", tried, wrong)


def try_ends(program):
    """The table of ends; and what is known to be wrong is told, and not counted."""
    result = try_table("ends", program, cases.ENDS)
    with tempfile.TemporaryDirectory(prefix="faults-") as folder:
        running.put_files(folder)
        for name, words, how, wanted in cases.KNOWN:
            with running.WAYS[how](folder) as given:
                got = answers(folder, words, program, **given)
            print(f"known: {name}: {'no longer so' if got == wanted else 'still so'}", flush=True)
    return result


PARTS = {
    "ends": try_ends,
    "limits": lambda program: try_table("limits", program, cases.LIMITS),
    "system": try_system,
}
