"""The ways in which a case is run, and whether its end is as it must be."""
import contextlib
import os
import resource
import subprocess
import threading
import time

import cases

PATIENCE = 60


def closing(*numbers):
    """Closes files of the run before it begins."""
    def before():
        for number in numbers:
            os.close(number)
    return {"preexec_fn": before}


def limited(what, most):
    """Limits what the run may have."""
    return {"preexec_fn": lambda: resource.setrlimit(what, (most, most))}


@contextlib.contextmanager
def opened(name, flags, role):
    file = os.open(name, flags)
    try:
        yield {role: file}
    finally:
        os.close(file)


@contextlib.contextmanager
def reader_gone(_):
    reads, writes = os.pipe()
    os.close(reads)
    try:
        yield {"stdout": writes}
    finally:
        os.close(writes)


@contextlib.contextmanager
def given_pipe(folder, parts):
    """A named pipe that a thread writes some bytes into and closes."""
    name = f"{folder}/pipe"
    os.mkfifo(name)

    def write():
        with contextlib.suppress(BrokenPipeError), open(name, "wb", buffering=0) as file:
            for part in parts:
                file.write(part)
                time.sleep(0.02 * (len(parts) > 1))
    writer = threading.Thread(target=write)
    writer.start()
    try:
        yield {}
    finally:
        # Nobody may have opened it.
        os.close(os.open(name, os.O_RDONLY | os.O_NONBLOCK))
        writer.join()
        os.remove(name)


@contextlib.contextmanager
def put(folder, make):
    """Puts something into the folder first."""
    make(folder)
    yield {}


def plain(how):
    return lambda folder: contextlib.nullcontext(how)


WAYS = {
    "": plain({}),
    "output closed": plain(closing(1)),
    "error closed": plain(closing(2)),
    "input closed": plain(closing(0)),
    "outputs closed": plain(closing(1, 2)),
    "all closed": plain(closing(0, 1, 2)),
    "output full": lambda _: opened("/dev/full", os.O_WRONLY, "stdout"),
    "error full": lambda _: opened("/dev/full", os.O_WRONLY, "stderr"),
    "output for reading": lambda _: opened("/dev/null", os.O_RDONLY, "stdout"),
    "reader gone": reader_gone,
    "reader goes": plain({}),
    "sums.out full": lambda folder: put(folder, lambda at: os.symlink("/dev/full", f"{at}/sums.out")),
    "sums.out folder": lambda folder: put(folder, lambda at: os.mkdir(f"{at}/sums.out")),
    "folder": lambda folder: put(folder, lambda at: os.mkdir(f"{at}/folder")),
    "pipe of nothing": lambda folder: given_pipe(folder, [b""]),
    "pipe of part": lambda folder: given_pipe(folder, [b"0,1,5\n1,1,5\n2,1,5"]),
    "pipe of less": lambda folder: given_pipe(folder, [b"0,1,5\n1,1,5\n2,1"]),
    "pipe of slow rows": lambda folder: given_pipe(folder, [b"0,1,5\n", b"1,1", b",5\n2,1,5\n", b"3,1,5\n"]),
}


def way_of(case):
    """How a case is run: of one with `left` the file of that name has its text."""
    name, _, text = case.way.partition(" ")
    if name != "left":
        return WAYS[case.way]
    return lambda folder: put(folder, lambda at: write(f"{at}/left", f"{text}\n"))


def write(name, text):
    with open(name, "w", encoding="utf-8", newline="") as file:
        file.write(text)


def call(program, words, folder, **how):
    """Runs the program in a folder: its status (or the signal, below 0), text and note; a run that doesn't end has None."""
    given = {"stdin": subprocess.DEVNULL, "stdout": subprocess.PIPE, "stderr": subprocess.PIPE, **how}
    with subprocess.Popen([program, *words.split()], cwd=folder, **given) as ran:
        try:
            text, note = ran.communicate(timeout=PATIENCE)
        except subprocess.TimeoutExpired:
            ran.kill()
            return None, "", ""
    return ran.returncode, (text or b"").decode(), (note or b"").decode()


def call_and_go(program, words, folder):
    """As call, by a reader of the output that goes behind its first byte."""
    with subprocess.Popen([program, *words.split()], cwd=folder, stdin=subprocess.DEVNULL, stdout=subprocess.PIPE, stderr=subprocess.PIPE, bufsize=0) as ran:
        text = ran.stdout.read(1)
        ran.stdout.close()
        ran.stdout = None
        try:
            note = ran.communicate(timeout=PATIENCE)[1]
        except subprocess.TimeoutExpired:
            ran.kill()
            return None, "", ""
    return ran.returncode, text.decode(), note.decode()


def is_note(text, status):
    """Whether this is what the program says at such an end: a line, or of `many` one a query."""
    return text.startswith("saber: ") and text.endswith("\n") if status else text == ""


def fits(case, got, whole):
    """Whether a case ended as it must."""
    status, text, note = got
    if status not in case.statuses:
        return False
    is_text = whole.startswith(text) if case.text == cases.FRONT else text == case.text
    is_said = is_note(note, status) if case.note == cases.ANY else note == case.note
    return is_text and is_said


def put_files(folder):
    for name, text in cases.FILES.items():
        write(f"{folder}/{name}", text)
