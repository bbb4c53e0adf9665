"""`saber answers`: the answers of a query as people read them, from its lines on standard input."""
import functools
import re
import select
import sys
import time

import parts
import query
import raw
import show
from faults import ROW, WORDS, Fault, shown
from fields import Fields
from texts import Texts

LINE = re.compile(r"-?[0-9]+(?:,-?[0-9]+)*").fullmatch
PAUSE, LONGEST_WAIT, ENOUGH = 0.25, 1.0, 1000


def of_queries(names, left, right):
    """The fields of the last query's answer, each query asked of the answer of the one before it."""
    found = None
    for name in names:
        asked = query.of_text(name, query.own_text(name))
        over = parts.over_fields(asked, left, right) if found is None else parts.over_answers(asked, found)
        found = parts.of_query(asked, over)
    return found, bool(asked.window)


class Answers:
    """The lines of an answer, and what they become."""

    def __init__(self, found, form):
        all_parts, table = parts.named_apart(parts.with_means(found)), functools.cache(Texts)
        self.fields, self.form, self.output = len(found), form(all_parts), raw.Output()
        self.show = [show.of_part(part, table) for part in all_parts]
        self.due, self.line, self.begun, self.since = [], 0, False, 0.0

    def take(self, piece):
        """Takes in some lines."""
        for line in piece.splitlines():
            self.line += 1
            numbers = [int(number) for number in line.split(",")] if LINE(line) else []
            if len(numbers) != self.fields:
                raise Fault(ROW, f"standard input line {self.line}: {shown(line)} isn't {self.fields} whole numbers")
            self.due.append(([show_it(numbers) for show_it in self.show], numbers))
        self.since = self.since or time.monotonic()

    def waits(self):
        """Whether more lines may come in a moment, which the first ones of a table wait for."""
        soon = time.monotonic() - self.since < LONGEST_WAIT and len(self.due) < ENOUGH
        return self.form.patient and not self.begun and soon and select.select([0], [], [], PAUSE)[0]

    def flush(self, ended=False):
        """Writes what is due, before the next read."""
        if (self.due and (ended or not self.waits())) or (ended and not self.begun):
            for line in self.form.lines(self.due, not self.begun):
                self.output.add(line)
            self.due.clear()
            self.begun = True
            self.output.flush()

    def run(self):
        """Goes through standard input."""
        try:
            for piece in raw.pieces(0, "standard input", self.flush):
                self.take(piece.decode(**raw.ENCODING))
        finally:
            self.flush(True)


def form_of(name, bars, windowed):
    """What makes the form that is asked for, of the fields that are shown."""
    if bars is None:
        forms = {"csv": show.Csv, "json": show.Json, "table": show.Table}
        return forms[name or ("table" if sys.stdout.isatty() else "csv")]

    def of_bars(all_parts):
        """Bars of one item of SELECT."""
        items = [part for part in all_parts if not part.mean][1 if windowed else 0:]
        if bars > len(items) or not show.is_number(items[bars - 1]):
            raise Fault(WORDS, f"--bars {bars}: no item {bars} of SELECT that is a number")
        return show.Bars(all_parts, items[bars - 1])
    return of_bars


def run(left, right, names, form, bars):
    """Reads FIELDS and queries, and then the answer."""
    fields = Fields(left)
    found, windowed = of_queries(names, fields, Fields(right) if right else None)
    Answers(found, form_of(form, bars, windowed)).run()
