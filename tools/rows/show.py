"""What a number of an answer stands for, as text; and lines of CSV, JSON, a table, bars."""
import functools
import json
import shutil

import times
from raw import csv_line

MEAN_DIGITS, KEPT = 3, 4096
BAR_SIGNS = {False: "#", True: "-"}


def decimal(value, digits):
    """A whole number divided by 10^digits."""
    if not digits:
        return str(value)
    text = f"{abs(value):0{digits + 1}}"
    return f"{'-' if value < 0 else ''}{text[:-digits]}.{text[-digits:]}"


def mean(total, count, digits):
    """A quotient, with MEAN_DIGITS more digits than the sum has, and a half rounded to the even one."""
    number, rest = divmod(total * 10**MEAN_DIGITS, count)
    if 2 * rest > count or (2 * rest == count and number % 2):
        number += 1
    return decimal(number, digits + MEAN_DIGITS)


def of_kind(kind, table):
    """A function from a number of this kind to its text, where `table` gives the texts of a file."""
    if kind.name == "time":
        return functools.lru_cache(KEPT)(lambda number: times.written(number * kind.each, kind.unit, kind.zone))
    if kind.name == "text":
        return table(kind.texts).text
    if kind.digits or kind.each != 1:
        return lambda number: decimal(number * kind.each, kind.digits)
    return str


def of_part(part, table):
    """A function from the numbers of a line to the text of one field."""
    if part.mean:
        total, count = part.mean
        return lambda numbers: mean(numbers[total], numbers[count], part.kind.digits)
    show, place = of_kind(part.kind, table), part.place
    return lambda numbers: show(numbers[place])


def is_number(part):
    """Whether a field is a number, at the right of its column."""
    return part.kind.name in ("int", "scale")


def plain(text):
    """A text without what moves a terminal's cursor."""
    return text if text.isprintable() else text.encode("unicode_escape").decode()


class Csv:
    """A header, and a line of CSV for each line."""

    patient = False

    def __init__(self, parts):
        self.header = [part.name for part in parts]

    def lines(self, rows, first):
        """The lines of some rows, the first ones with a header."""
        return [csv_line(row) for row, _ in ([(self.header, ())] if first else []) + rows]


class Json:
    """An object on each line; numbers are numbers, with all their digits."""

    patient = False

    def __init__(self, parts):
        self.keys = [json.dumps(part.name) + ": " for part in parts]
        self.numbers = [is_number(part) for part in parts]

    def lines(self, rows, _):
        """The lines of some rows."""
        return [self.line(row) for row, _ in rows]

    def line(self, row):
        """The line of a row."""
        cells = zip(self.keys, self.numbers, row)
        return "{" + ", ".join(key + (cell if number else json.dumps(cell)) for key, number, cell in cells) + "}\n"


class Table:
    """A header and columns, as wide as what came so far."""

    patient = True

    def __init__(self, parts):
        self.header = [part.name for part in parts]
        self.right = [is_number(part) for part in parts]
        self.widths = [0] * len(parts)

    def lines(self, rows, first):
        """The lines of some rows, the first ones with a header."""
        shown = [[plain(cell) for cell in row] for row in ([self.header] if first else []) + [row for row, _ in rows]]
        self.widths = [max(width, *map(len, column)) for width, column in zip(self.widths, zip(*shown))]
        return [self.line(row) + "\n" for row in shown]

    def line(self, row):
        """A row with its cells side by side."""
        cells = zip(row, self.widths, self.right)
        return "  ".join(cell.rjust(width) if right else cell.ljust(width) for cell, width, right in cells).rstrip()


class Bars(Table):
    """A table with a bar behind each line, as long as one of its numbers is large beside the largest so far."""

    def __init__(self, parts, part):
        super().__init__(parts)
        self.part, self.most = part, 1

    def lines(self, rows, first):
        """The lines of some rows, the first ones with a header."""
        values = [numbers[self.part.place] for _, numbers in rows]
        self.most = max([self.most, *map(abs, values)])
        lines = [line[:-1] for line in super().lines(rows, first)]
        room = max(shutil.get_terminal_size().columns - sum(self.widths) - 2 * len(self.widths) - 1, 10)
        wide = sum(self.widths) + 2 * len(self.widths)
        bars = ([""] if first else []) + [self.bar(value, room) for value in values]
        return [(line.ljust(wide) + bar).rstrip() + "\n" for line, bar in zip(lines, bars)]

    def bar(self, value, room):
        """The bar of a value; that of one below 0 is of other signs."""
        return BAR_SIGNS[value < 0] * -(-abs(value) * room // self.most)
