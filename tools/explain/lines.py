"""What is said of a line of rows that was refused: the line, and what is off about it."""
import itertools
import re
import shlex
import time
import places
from queries import LIMIT, Query

# A line that is taken has at most so many bytes; of a longer one no more than this is looked at.
LONGEST = 4096
LOOKED_AT = 1 << 20
MOST_SLACK = 1 << 40
TIME = re.compile(rb"-?\d{1,20}\r?")
# So many seconds at most are spent on what a whole file needs.
SECONDS = 10

# How files begin that are no plain text.
BEGINNINGS = [
    (b"\x1f\x8b", "the file is compressed: give it as <(zcat {name})"),
    (b"(\xb5/\xfd", "the file is compressed: give it as <(zstdcat {name})"),
    (b"\xfd7zXZ", "the file is compressed: give it as <(xzcat {name})"),
    (b"BZh", "the file is compressed: give it as <(bzcat {name})"),
    (b"PK\x03\x04", "the file is an archive: give it as <(unzip -p {name})"),
    (b"\xef\xbb\xbf", "the file begins with a byte order mark, which is no digit: give it as <(tail -c +4 {name})"),
    (b"\xff\xfe", "the file is UTF-16: give it as <(iconv -f UTF-16 -t UTF-8 {name})"),
    (b"\xfe\xff", "the file is UTF-16: give it as <(iconv -f UTF-16 -t UTF-8 {name})"),
]

# Of each table the first pattern that is found gives the sentence: here in a line, with a number of fields that isn't wanted,
LINES = [
    (r"\0", "the file has bytes of 0: UTF-16? Give it as <(iconv -f UTF-16LE -t UTF-8 {name})"),
    (r"^\s*[\[{]", "this looks like JSON: rows are whole numbers with commas between"),
    (r"^(#|//|-- )", "rows have no comments: give the file as <(grep -v '^#' {name})"),
    (r"\r(?=.)", "its lines end with CR alone: give it as <(tr '\\r' '\\n' < {name})"),
    (r"^\s+$", "an empty line is passed over, but this one has blanks"),
    (r"^[^,]*;", "fields have commas between, not semicolons: give the file as <(tr ';' , < {name})"),
    (r"^[^,]*\t", "fields have commas between, not tabs: give the file as <(tr '\\t' , < {name})"),
    (r"^[^,]*\|", "fields have commas between, not bars: give the file as <(tr '|' , < {name})"),
    (r"^[^,]*\d +\S", "fields have commas between, not blanks: give the file as <(tr -s ' ' , < {name})"),
    (r"\"[^\",]*,[^\"]*\"", "there are no quotes, so a comma inside them begins a field: saber rows reads such files"),
    (r",\s*$", "the comma at its end begins one more field: give the file as <(sed 's/,$//' {name})"),
    (r"", ""),
]
# and here in a field that isn't a number.
FIELDS = [
    (r"\0", "the file has bytes of 0: UTF-16? Give it as <(iconv -f UTF-16LE -t UTF-8 {name})"),
    (r"\r.", "its lines end with CR alone: give it as <(tr '\\r' '\\n' < {name})"),
    (r"^$", "the field is empty, and there are no nulls: leave the line out, or put a number for none there"),
    (r"^\s+$", "the field has blanks alone, and there are no nulls: leave the line out, or put a number for none there"),
    (r"^\s*(NULL|NA|N/A|NAN|NONE|NIL|-|\\N|\?)\s*$", "there are no nulls: leave the line out, or put a number for none there"),
    (r"^\s*'", "a number stands without quotes: give the file as <(tr -d \"'\" < {name})"),
    (r"^\s*[\"`]", "a number stands without quotes: give the file as <(tr -d '\"' < {name})"),
    (r"^\s*[\[{]", "this looks like JSON: rows are whole numbers with commas between"),
    (r"^(#|//|-- )", "rows have no comments: give the file as <(grep -v '^#' {name})"),
    (r"[\u00a0\u2000-\u200b\u202f\ufeff]", "the field has a blank that is none of ASCII's: take it out"),
    (r"^\s+-?\d+$|^-?\d+\s+$", "blanks stand round the number: give the file as <(tr -d ' ' < {name})"),
    (r"^\+\d", "a number has no + before it"),
    (r"^-?\d*\.\d*$", "there are no decimals: scale the column to whole numbers, such as cents (saber rows does it)"),
    (r"^-?\d+(\.\d+)?E[-+]?\d+$", "a number is digits alone, without an exponent: write it out"),
    (r"^\d{4}-\d\d?-\d\d?([T ].*)?$|^\d{4}/\d\d?/\d\d?|^\d\d?[./-]\d\d?[./-]\d{2,4}|^\d\d?:\d\d|^\d\d?/[A-Z]{3}/\d{4}",
     "a time is a whole number, such as seconds since 1970 (saber rows makes them of dates)"),
    (r"^(TRUE|FALSE|YES|NO|ON|OFF)$", "there are no truth values: write 1 and 0"),
    (r"^0X[\dA-F]+$", "a number is decimal digits alone"),
    (r"^-?\d{1,3}([ '_]\d{3})+$", "a number is digits alone, without signs between them"),
    (r"^[$€£¥]\s*\d|^-?\d+(\.\d+)?\s*[A-Z%$€£¥µ°/]+$", "a number has no unit"),
    (r"^[–—−]\d", "this dash is no minus: write -"),
    (r"^-+\d|^--", "a number has one - at most"),
    (r"^\w*[^\x00-\x7f]\w*$", "a number is the digits 0 to 9 alone; each text is given a number before (saber rows)"),
    (r"", "there are no texts: give each a number before (saber rows does it)"),
]
# A number as it may be written in a file that isn't one of rows.
NUMBER = re.compile(r"\s*[\"']?[-+]?[\d.]+[\"']?\s*")
HEADER = "the first line looks like a header: give the file as <(tail -n +2 {name}) (saber rows reads headers)"

RANGES = [
    (r"^1 -", "a time is 0 or more: add to all what makes the least one 0"),
    (r"^1 ", "a time is 2^62 = 4611686018427387904 at most"),
    (r"", "a value is -9223372036854775808 to 9223372036854775807"),
]

# What is said where the file can't be read again.
PLAIN = {
    "too many lines": "the file has more lines than --max-lines allows: a larger one, or none",
    "too long": "a line has 4,096 bytes at most",
    "field count": "each line has as many fields as its stream has columns, with commas between",
    "bad number": "a field is digits, with - before them or not: no header, decimals, quotes, blanks or texts",
    "range": "a time is 0 to 2^62, another value a 64-bit integer",
    "time order": "times don't fall: --slack S takes lines whose time is up to S below the greatest before",
    "too many held": "more than 1,048,576 rows would wait: a smaller --slack, or the file in order of time, <(sort -s -t, -k1,1n FILE)",
}


def first_found(table, text):
    """The sentence of the first pattern that is found in the text."""
    return next(told for pattern, told in table if re.search(pattern, text, re.I))


def columns_of(query, side):
    """The name and the columns of the stream on a side of a query's FROM, as far as they are there."""
    text = places.front(query, LIMIT + 1) if query else None
    if text is None:
        return "the stream", []
    found = Query(text)
    name = (found.sources() + ["", ""])[side]
    return name or "the stream", found.declared().get(name, [])


class Refused:
    """A line that was refused, with what is known of its file and its stream."""

    def __init__(self, name, number, line, stream, columns):
        self.name, self.number, self.data = name, number, line
        self.stream, self.columns = stream, columns
        self.content = line.removesuffix(b"\n").removesuffix(b"\r")
        self.text = self.content.decode("utf-8", "replace")
        self.fields = self.text.split(",")

    def as_plain_text(self):
        """Why the line is no line of rows at all, if so."""
        if self.number == 1:
            for beginning, told in BEGINNINGS:
                if self.data.startswith(beginning):
                    return told
        return ""

    def is_header(self):
        """Whether it begins with a name, and no field is a number."""
        return re.match(r"\s*[\"']?[^\W\d]", self.text) and not any(NUMBER.fullmatch(it) for it in self.fields)

    def count_told(self):
        """The number of fields that are there and that are wanted."""
        have, want = len(self.fields), len(self.columns)
        told = f"it has {have} field{'s' * (have != 1)}"
        return told + (f", where {self.stream} has {want} columns: {', '.join(self.columns)}" if want else "")

    def wrong_count(self):
        told = first_found(LINES, self.text)
        return [self.count_told(), *([told] if told else [])]

    def wrong_number(self, field):
        if self.number == 1 and self.is_header():
            return [HEADER]
        text = self.fields[field - 1]
        return [f"{self.field_told(field)} is '{text[:places.WIDTH]}'", first_found(FIELDS, text)]

    def out_of_range(self, field):
        text = self.fields[field - 1]
        return [f"{self.field_told(field)} is {text[:places.WIDTH]}", first_found(RANGES, f"{field} {text}")]

    def field_told(self, field):
        return f"field {field} ({self.columns[field - 1]})" if field <= len(self.columns) else f"field {field}"

    def too_long(self, _):
        length = len(self.content)
        return [f"it has {'more than ' * (length >= LOOKED_AT)}{length:,} bytes, {LONGEST:,} at most: is it text with line feeds?"]

    def too_late(self, _):
        own, need, late, count, whole = lateness(self.name, self.number)
        which = "the whole file" if whole else f"the first {count} lines"
        remedy = f"--slack {need} puts them in order" if need <= MOST_SLACK else "give it in order: <(sort -s -t, -k1,1n {name})"
        return [f"its time is {own} below the greatest one before it; late lines in {which}: {late}; {remedy}"]


def pieces(file):
    """The lines of a file, a list for each piece that is read, each line at least to the end of its first field if it has one."""
    rest = b""
    while piece := file.read(places.PIECE):
        *whole, rest = (rest + piece).split(b"\n")
        yield whole
        rest = rest[:LONGEST]
    yield [rest] if rest else []


def times_of(lines, before):
    """The times of lines; one that has none is told as the line before it."""
    firsts = [line.split(b",", 1)[0] for line in lines]
    try:
        return list(map(int, firsts))
    except ValueError:
        return list(itertools.accumulate(firsts, lambda last, it: int(it) if TIME.fullmatch(it) else last, initial=before))[1:]


def lateness(name, number):
    """By how much a line is late, the slack that a file needs, how many lines are late, how many were looked at, and whether these are all."""
    greatest, own, need, late, count = -1, 0, 0, 0, 0
    until = time.monotonic() + SECONDS
    with open(name, "rb") as file:
        for lines in pieces(file):
            times = times_of(lines, greatest)
            *tops, greatest = itertools.accumulate(times, max, initial=greatest)
            below = [top - at for top, at in zip(tops, times)]
            if count < number <= count + len(below):
                own = below[number - count - 1]
            count += len(below)
            need = max(need, *below, 0)
            late += sum(it > 0 for it in below)
            if count >= number and time.monotonic() > until:
                return own, need, late, count, not file.read(1)
    return own, need, late, count, True


# What is said by cause, of a refused line and of the field, if the note names one.
JUDGED = {
    "too long": Refused.too_long,
    "field count": lambda line, _: line.wrong_count(),
    "bad number": Refused.wrong_number,
    "range": Refused.out_of_range,
    "time order": Refused.too_late,
}


def told(name, number, cause, query, side):
    """The lines on a refused line of a file, by the note's number and cause; the query is that whose stream it is of."""
    kind, _, field = cause.partition(" in field ")
    if kind not in JUDGED or not places.is_regular(name):
        return [PLAIN[kind]]
    line = places.line_of(name, number, LOOKED_AT)
    if line is None:
        return [PLAIN[kind]]
    refused = Refused(name, number, line, *columns_of(query, side))
    binary = refused.as_plain_text()
    judged = [binary] if binary else JUDGED[kind](refused, int(field or 0))
    shown = places.decoded(refused.content[:4 * places.WIDTH])[:places.WIDTH]
    place = [f"{name}, line {number}:"] + ["  " + shown] * bool(shown.strip())
    return place + [it.replace("{name}", shlex.quote(name)) for it in judged]


def told_between(cause, first, second):
    """The line on a line between the two queries of a chain."""
    kind = cause.partition(" in field ")[0]
    stream, columns = columns_of(second, 0)
    text = places.front(first, LIMIT + 1) if first else None
    if kind == "field count" and text is not None and columns:
        items = [item.replace(" ", "") for item in Query(text).items()]
        have = f"the lines between have {len(items) + 1} fields, the window's number and {', '.join(items)}"
        return [f"{have}; {stream} has {len(columns)} columns: {', '.join(columns)}"]
    if kind == "range":
        return ["a value of the first query's answer isn't a 64-bit integer, as a SUM needn't be: ask for it in a larger unit"]
    return [PLAIN[kind]]
