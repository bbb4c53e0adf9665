"""`saber rows`: rows of a file with a header, as they come."""
import csv
import os

import raw
from cells import MOST_TIME
from faults import FILE, ROW, Fault, file_fault
from fields import Fields
from layout import Layout
from texts import Texts


def is_one_of(path, others):
    """Whether there is a file of this name that is one of others, which are names and descriptors."""
    for other in others:
        try:
            if os.path.isfile(path) and os.path.samefile(path, other):
                return True
        except OSError:
            continue
    return False


class Late:
    """The side file of rows that came too late: the header and the records as they were, and how many."""

    def __init__(self, path, slack, apart):
        self.path, self.slack, self.delimiter = path, slack, ","
        self.count, self.lines, self.file = 0, [], None
        if path is not None and is_one_of(path, apart):
            raise Fault(FILE, f"{path}: is read or written already, so rows that are late can't go there")

    def begin(self, header, delimiter):
        """Writes the header."""
        self.delimiter = delimiter
        try:
            self.file = open(self.path, "w", newline="", **raw.ENCODING) if self.path else None
        except OSError as error:
            raise file_fault(self.path, error) from None
        self.lines.append(raw.csv_line(header, delimiter))

    def put(self, record):
        """Puts a record aside."""
        self.count += 1
        self.lines.append(raw.csv_line(record, self.delimiter))

    def flush(self):
        """Writes what is put aside."""
        if self.lines and self.file:
            try:
                self.file.write("".join(self.lines))
                self.file.flush()
            except OSError as error:
                raise file_fault(self.path, error) from None
            self.lines.clear()

    def told(self):
        """What is told at the end, where rows were put aside."""
        rows = "1 row is" if self.count == 1 else f"{self.count} rows are"
        return f"{rows} later than {self.slack} and in {self.path}" if self.count else ""


class Conversion:
    """Rows of one file: what is written goes out before each read."""

    def __init__(self, path, source, slack, late):
        self.fields = Fields(path)
        self.table = Texts(self.fields.texts) if self.fields.has_texts() else None
        file, self.name = raw.opened(None if source == "-" else source)
        self.slack, self.output = slack, raw.Output()
        self.late = Late(late, slack or 0, [file, 1, path, self.fields.texts])
        parts = raw.texts(raw.pieces(file, self.name, self.flush), self.name)
        self.reader = raw.records(parts, self.fields.delimiter)

    def flush(self):
        """Writes all that is due."""
        self.late.flush()
        self.output.flush()

    def header(self):
        """The first record."""
        try:
            return next(filter(None, self.reader))
        except csv.Error as error:
            raise self.refused(0, f": {raw.why_no_csv(error)}") from None
        except StopIteration:
            raise self.refused(0, ": no header") from None

    def run(self):
        """Writes the rows; what was right before a fault is written before it is told."""
        try:
            self.take_all()
        finally:
            self.flush()

    def take_all(self):
        """Goes through the file."""
        header = self.header()
        layout = Layout(self.fields, header, self.table, self.name)
        self.late.begin(header, self.fields.delimiter)
        self.take_records(layout, self.reader.line_num)

    def take_records(self, layout, line):
        """Adds the row of each record; `line` is where the record before it ended."""
        row, add, reader = layout.row, self.output.add, self.reader
        slack = MOST_TIME if self.slack is None else self.slack
        greatest, least = 0, -slack
        try:
            for record in reader:
                try:
                    time, text = row(record)
                except ValueError:
                    if record:
                        raise self.refused(line, layout.fault(record)) from None
                else:
                    if time > greatest:
                        greatest, least = time, time - slack
                    if time >= least:
                        add(text)
                    else:
                        self.too_late(record, line, greatest - time)
                line = reader.line_num
        except csv.Error as error:
            raise self.refused(line, f": {raw.why_no_csv(error)}") from None

    def refused(self, line, why):
        """The fault of the record behind this line."""
        return Fault(ROW, f"{self.name} line {line + 1}{why}")

    def too_late(self, record, line, by):
        """A row that is later than the slack goes aside, or ends the run."""
        if not self.late.path:
            why = f": {by} below the greatest time: --slack {by}, or --late FILE"
            raise self.refused(line, why)
        self.late.put(record)
