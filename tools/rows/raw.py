"""Files of cells: read as they come, in whole lines, and written."""
import csv
import io
import os
import re
from itertools import chain

from faults import FILE, ROW, WRITE, Closed, Fault, file_fault

ENCODING = {"encoding": "utf-8", "errors": "surrogateescape"}
AT_ONCE, MOST_LINE = 1 << 18, 1 << 22
QUOTED = re.compile(r'["\r\n]').search
NO_CSV = {
    "new-line character": "a return (CR) without a line feed behind it",
    "end of data": "a quote that isn't closed",
    "expected after": "something behind a closing quote",
    "field limit": "a cell of more than 131,072 characters",
}
NO_TEXT = {
    b"\xff\xfe": "UTF-16: make it UTF-8 by iconv -f utf-16",
    b"\xfe\xff": "UTF-16: make it UTF-8 by iconv -f utf-16",
    b"\x1f\x8b": "packed: give <(zcat FILE)",
    b"PK\x03\x04": "packed, or a spreadsheet: save it as CSV",
}


def opened(name):
    """A descriptor of a file to read, of standard input where no name is given, and its name in notes."""
    if name is None:
        return 0, "standard input"
    try:
        return os.open(name, os.O_RDONLY | os.O_CLOEXEC), name
    except OSError as error:
        raise file_fault(name, error) from None


def some_of(file, name):
    """What a read of a file gives: nothing at its end."""
    try:
        return os.read(file, AT_ONCE)
    except OSError as error:
        raise file_fault(name, error) from None


def pieces(file, name, before=lambda: None):
    """What a file has, in pieces of whole lines as they come; `before` is called before each read."""
    rest = b""
    while True:
        before()
        got = some_of(file, name)
        if not got:
            break
        whole, feed, rest = (rest + got).rpartition(b"\n")
        if feed:
            yield whole + feed
        if len(rest) > MOST_LINE:
            raise Fault(ROW, f"{name}: a line of more than {MOST_LINE} bytes")
    if rest:
        yield rest


def texts(parts, name):
    """Pieces as text, without the mark that some programs put before it."""
    first = True
    for part in parts:
        if first:
            for mark, what in NO_TEXT.items():
                if part.startswith(mark):
                    raise Fault(ROW, f"{name} line 1: {what}")
            part = part.removeprefix(b"\xef\xbb\xbf")
        first = False
        yield part.decode(**ENCODING)


def records(parts, delimiter):
    """A reader of the records of CSV in pieces of text, which gives each as soon as its line is there."""
    return csv.reader(chain.from_iterable(map(io.StringIO, parts)), delimiter=delimiter, strict=True)


def why_no_csv(error):
    """Why a record is no CSV, in words that all versions of Python share."""
    return next((why for part, why in NO_CSV.items() if part in str(error)), str(error))


def csv_line(cells, delimiter=","):
    """A line of CSV."""
    line = delimiter.join(cells)
    if QUOTED(line) or line.count(delimiter) != len(cells) - 1:
        line = delimiter.join(quoted(cell, delimiter) for cell in cells)
    return (line or '""') + "\n"


def quoted(cell, delimiter):
    """A cell as CSV has it: in quotes where it must be."""
    return '"' + cell.replace('"', '""') + '"' if delimiter in cell or QUOTED(cell) else cell


class Output:
    """Standard output: what is added goes out when it is asked for."""

    def __init__(self):
        self.due = []
        self.add = self.due.append

    def flush(self):
        """Writes what is due."""
        data = "".join(self.due).encode(**ENCODING)
        self.due.clear()
        try:
            while data:
                data = data[os.write(1, data):]
        except BrokenPipeError:
            raise Closed from None
        except OSError as error:
            raise Fault(WRITE, f"standard output: {error.strerror.lower()}") from None


def of_bytes(name, most):
    """The bytes of a file, which may have so many."""
    file, name = opened(name)
    found = got = some_of(file, name)
    while got and len(found) <= most:
        got = some_of(file, name)
        found += got
    os.close(file)
    if len(found) > most:
        raise Fault(FILE, f"{name}: more than {most} bytes")
    return found
