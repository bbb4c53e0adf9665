"""How far a program has read its files of rows: from the system's own account of it, so that the program knows nothing of this."""
import os
import stat
import sys
import time

# No line before so many seconds, and a new one every so many.
FIRST, EACH = 2.0, 0.5
# The front of a file whose lines tell how long a line is.
FRONT = 1 << 16


class Rows:
    """A regular file of rows."""

    def __init__(self, name):
        told = os.stat(name)
        if not stat.S_ISREG(told.st_mode) or not told.st_size:
            raise OSError
        self.same, self.size = (told.st_dev, told.st_ino), told.st_size
        with open(name, "rb") as file:
            front = file.read(FRONT)
        self.line = len(front) / max(1, front.count(b"\n"))


def regular(names):
    """Those of the files that are regular, if all are."""
    try:
        return [Rows(name) for name in names]
    except OSError:
        return []


def is_for_a_person():
    """Whether a line can be shown, and is to be."""
    return os.isatty(2) and os.environ.get("TERM") != "dumb" and os.environ.get("SABER_PROGRESS") != "0"


def is_in_front():
    """Whether the terminal is this call's now: a line of a job behind others would stand among theirs."""
    try:
        return os.tcgetpgrp(2) == os.getpgrp()
    except OSError:
        return False


class Progress:
    """The line of a process: none, where it reads no regular files or no person reads the line."""

    def __init__(self, process, names):
        self.process, self.begun, self.shown, self.at = process, time.monotonic(), False, -1
        self.files = regular(names) if is_for_a_person() else []
        self.due = self.begun + FIRST

    def wait(self):
        """For how many seconds there is nothing to do, or nothing to do ever."""
        return max(0.0, self.due - time.monotonic()) if self.files else None

    def positions(self):
        """How far each file was read: the furthest of those that have it open."""
        found, folder = {}, f"/proc/{self.process}"
        for number in os.listdir(f"{folder}/fd"):
            try:
                told = os.stat(f"{folder}/fd/{number}")
                with open(f"{folder}/fdinfo/{number}", encoding="utf-8") as file:
                    at = int(file.readline().split()[1])
            except (OSError, ValueError, IndexError):
                continue
            same = (told.st_dev, told.st_ino)
            found[same] = max(at, found.get(same, 0))
        return found

    def look(self):
        """Shows the line anew, if it is due and the program has read on."""
        if self.wait() != 0:
            return
        self.due = time.monotonic() + EACH
        try:
            found = self.positions()
        except OSError:
            return
        read = [min(found.get(it.same, 0), it.size) for it in self.files]
        if sum(read) != self.at and is_in_front():
            self.at = sum(read)
            self.show(read)

    def show(self, read):
        share = sum(read) * 100 // sum(it.size for it in self.files)
        rows = sum(at / it.line for at, it in zip(read, self.files)) / (time.monotonic() - self.begun)
        sys.stderr.write(f"\rsaber: {share} %, {rows:,.0f} rows a second\x1b[K")
        sys.stderr.flush()
        self.shown = True

    def hide(self):
        if self.shown:
            sys.stderr.write("\r\x1b[K")
            sys.stderr.flush()
