"""watch.py PROGRAM WORDS..: runs the program where a person reads standard error, and ends as it does.

Its input and its answer are its own; what it says is shown when it has ended, and explained where it failed. Until then a line
shows how far it has read.
"""
import signal

# Until there is a program to wait for, an interrupt ends this alone.
if signal.getsignal(signal.SIGINT) != signal.SIG_IGN:
    signal.signal(signal.SIGINT, signal.SIG_DFL)

import contextlib
import os
import select
import subprocess
import sys

import places
import progress
import words

HANDED_ON = (signal.SIGTERM, signal.SIGHUP, signal.SIGUSR1, signal.SIGUSR2)
OF_TERMINAL = (signal.SIGINT, signal.SIGQUIT)


def named(given):
    """The files of rows of a call whose progress is shown: not where its answer goes to a terminal itself."""
    shown = words.is_command(given) and (given[0] == "many" or not os.isatty(1))
    return words.files_of_rows(given) if shown else []


def wait_through_signals(children, early):
    """Has this process wait for the program whatever comes: what the terminal sends comes to both, the rest is handed on.

    What comes before the program is among the children is early.
    """
    def hand_on(number, _frame):
        if not children:
            early.append(number)
        for child in children:
            with contextlib.suppress(ProcessLookupError):
                child.send_signal(number)

    def pass_over(_number, _frame):
        pass

    for numbers, action in ((HANDED_ON, hand_on), (OF_TERMINAL, pass_over)):
        for number in numbers:
            if signal.getsignal(number) != signal.SIG_IGN:
                signal.signal(number, action)


def note_of(child, line):
    """What the program says until it ends."""
    parts = []
    while True:
        ready, _, _ = select.select([child.stderr], [], [], line.wait())
        line.look()
        if ready:
            part = os.read(child.stderr.fileno(), 1 << 16)
            if not part:
                return b"".join(parts)
            parts.append(part)


def main(program, given):
    children, early = [], []
    wait_through_signals(children, early)
    try:
        child = subprocess.Popen([program, *given], stderr=subprocess.PIPE, close_fds=False)
    except OSError as error:
        places.say(f"{program}: {error.strerror}")
        return places.NOT_BUILT
    children.append(child)
    for number in early:
        child.send_signal(number)
    line = progress.Progress(child.pid, named(given))
    note = note_of(child, line)
    status = child.wait()
    line.hide()
    with contextlib.suppress(OSError):
        os.write(2, note)
    if status < 0:
        places.end_by(-status)
    if status:
        places.explain(status, os.fsdecode(note).replace("\0", ""), given)
    return status


if __name__ == "__main__":
    sys.exit(main(sys.argv[1], sys.argv[2:]))
