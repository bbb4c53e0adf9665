"""`saber tick`: rows passed on, and a row of the time where none came for a while."""
import os
import re
import select
import time

import raw
from faults import WORDS, Fault, file_fault
from kinds import DIGITS

EVERY = re.compile(r"([0-9]{1,18})(s|ms|us|ns)?").fullmatch
LONGEST = 10**9


def greatest(rows, so_far):
    """The greatest time of some rows, and of those before them; what is no time is left to saber to refuse."""
    for row in rows.split(b"\n"):
        first = row.partition(b",")[0]
        if first.isdigit() and len(first) < 20:
            so_far = max(so_far, int(first))
    return so_far


class Ticker:
    """Rows that pass, and the clock beside them."""

    def __init__(self, every, unit, columns):
        self.nanoseconds = 10 ** (9 - DIGITS[unit])
        self.wait = every * self.nanoseconds / 10**9
        self.zeros, self.rest, self.time = ",0" * (columns - 1) + "\n", b"", 0
        self.output = raw.Output()

    def run(self):
        """Passes rows on until there are no more."""
        due = time.monotonic() + self.wait
        while True:
            if not select.select([0], [], [], max(0, due - time.monotonic()))[0]:
                self.tick()
            elif not self.take():
                break
            due = time.monotonic() + self.wait
        self.put(self.rest)

    def take(self):
        """Passes on what whole rows there are; whether there may be more."""
        try:
            got = os.read(0, raw.AT_ONCE)
        except OSError as error:
            raise file_fault("standard input", error) from None
        whole, feed, self.rest = (self.rest + got).rpartition(b"\n")
        self.time = greatest(whole, self.time)
        self.put(whole + feed)
        return got

    def tick(self):
        """A row of the clock's time, which isn't before those of the rows that passed."""
        self.time = max(self.time, time.time_ns() // self.nanoseconds)
        self.put(f"{self.time}{self.zeros}".encode())

    def put(self, rows):
        """Writes rows."""
        self.output.add(rows.decode(**raw.ENCODING))
        self.output.flush()


def run(every, columns):
    """Reads EVERY, a number and the unit of the rows' time, and passes rows on."""
    said = EVERY(every)
    if not said or not 0 < int(said[1]):
        raise Fault(WORDS, f"{every!r} isn't a number and a unit, such as 10s or 500ms")
    unit = said[2] or "s"
    if int(said[1]) * 10 ** (9 - DIGITS[unit]) > LONGEST * 10**9:
        raise Fault(WORDS, f"{every!r} is more than {LONGEST} seconds")
    Ticker(int(said[1]), unit, columns).run()
