"""`saber rows --guess`: FIELDS to begin with, of what the first rows of a file look like."""
import csv
import os
import re
from itertools import chain

import cells
import raw
import times
from faults import ROW, Fault, Wrong
from fields import KEYWORDS, MOST_COLUMNS
from kinds import DIGITS

MOST_ROWS, MOST_GUESSED_SCALE = 1000, 9
LEADING = re.compile(r"\s*[+-]?0[0-9]").match
FRACTION = re.compile(r":[0-9]{2}[.,]([0-9]+)").search
YEARS, TAB = (631152000, 4102444800), "\t"


def delimiter_of(header):
    """The sign that a header's cells are most likely cut by."""
    bare = re.sub(r'"[^"]*"', "", header)
    return max(",;\t|", key=lambda sign: (bare.count(sign), sign == ","))


def sample(name):
    """The delimiter of a file, its header and its first rows."""
    file, name = raw.opened(name)
    parts = raw.texts(raw.pieces(file, name), name)
    first = next(parts, "")
    delimiter = delimiter_of(first.partition("\n")[0])
    records, found = raw.records(chain([first], parts), delimiter), []
    try:
        for record in records:
            found += [record] if record else []
            if len(found) > MOST_ROWS:
                break
    except csv.Error as error:
        raise Fault(ROW, f"{name} line {records.line_num}: {raw.why_no_csv(error)}") from None
    if not found:
        raise Fault(ROW, f"{name} line 1: no header")
    return delimiter, found[0], [record for record in found[1:] if len(record) == len(found[0])]


def readable(read, given):
    """Whether all these cells can be read so."""
    try:
        return all(cells.LEAST <= read(cell) <= cells.MOST for cell in given)
    except Wrong:
        return False


def number_kind(given):
    """The kind of a column of numbers, where it is one; what has zeros before it, such as 007, is a text."""
    if any(map(LEADING, given)):
        return None
    if readable(cells.whole, given):
        return epoch_kind(given) or "int"
    for comma in (False, True):
        for digits in range(MOST_GUESSED_SCALE + 1):
            if readable(cells.decimal_reader(digits, comma), given):
                return f"scale {digits}"
    return None


def time_kind(given):
    """The kind of a column of times, where it is one: its unit by the digits behind the seconds."""
    digits = max(len(found[1]) if (found := FRACTION(cell)) else 0 for cell in given)
    unit = next((unit for unit, most in DIGITS.items() if digits <= most), "ns")
    if not all("-" in cell for cell in given):
        return None
    for zone, said in ((None, ""), (times.UTC, " in UTC")):
        if readable(times.reader(unit, zone), given):
            return f"time {unit}{said}"
    return None


def epoch_kind(given):
    """The kind of a column of numbers since 1970 that hardly fall, where it is one."""
    numbers = [int(cell) for cell in given]
    falls = sum(after < before for before, after in zip(numbers, numbers[1:]))
    if 20 * falls > len(numbers):
        return None
    for unit, digits in DIGITS.items():
        if all(YEARS[0] * 10**digits <= number <= YEARS[1] * 10**digits for number in numbers):
            return f"time {unit}"
    return None


def kind_of(given):
    """The kind of a column's cells that aren't empty."""
    return given and (number_kind(given) or time_kind(given)) or "text"


def name_of(header, taken):
    """A name for a column, that is no keyword and not taken."""
    name = re.sub(r"[^a-z0-9]+", "_", header.strip().lower()).strip("_") or "column"
    name = f"c_{name}" if name[0].isdigit() else name
    name = f"{name}_" if name.upper() in KEYWORDS else name
    number, found = 1, name
    while found in taken:
        number += 1
        found = f"{name}_{number}"
    taken.add(found)
    return found


def header_said(header):
    """A header as FIELDS has it."""
    return header if re.fullmatch(r'[^\s"#]+', header) else '"' + header.replace('"', '""') + '"'


def columns_of(header, rows):
    """The name, the header, the kind and the number of empty cells of each column, a column of times first."""
    taken, found = set(), []
    for place, cell in enumerate(header):
        given = [row[place] for row in rows]
        full = [text for text in given if text.strip()]
        found.append((name_of(cell, taken), cell.strip(), kind_of(full), len(given) - len(full)))
    return sorted(found, key=lambda column: not column[2].startswith("time"))


def column_line(name, header, kind, empty, rows):
    """A column's line of FIELDS."""
    numbers = empty and not kind.startswith(("text", "time"))
    line = f"{name} = {header_said(header)} {kind}{' else 0' if numbers else ''}"
    return f"{line}   # {empty} of {rows} cells are empty" if empty and kind != "text" else line


def stream_name(path):
    """A name for the stream, after the file."""
    name = re.sub(r"[^A-Za-z0-9]+", "", os.path.basename(path).partition(".")[0].title()) or "Raw"
    name = name if name[0].isalpha() else f"S{name}"
    return name + "_" if name.upper() in KEYWORDS else name


def lines(path):
    """The lines of FIELDS to begin with, the declaration of the stream first."""
    delimiter, header, rows = sample(path)
    found = columns_of(header, rows)
    kept, left = found[:MOST_COLUMNS], found[MOST_COLUMNS:]
    yield f"# STREAM {stream_name(path)}({', '.join(column[0] for column in kept)});"
    number = f"{len(rows)} row{'s' * (len(rows) != 1)}"
    yield f"# A guess by {number}. The first column is the time. Leave out what no query needs."
    if not kept[0][2].startswith("time"):
        yield "# No column looks like a time: put the line of the one that is the time first."
    if any("in UTC" in kind for _, _, kind, _ in kept):
        yield "# Times have no offset: `in UTC` is a guess, write `in` and the zone whose clock it is."
    if delimiter != ",":
        yield f"delimiter {'tab' if delimiter == TAB else delimiter}"
    if comma_decimals(kept, header, rows):
        yield "decimal comma"
    for column in kept:
        yield column_line(*column, len(rows))
    for column in left:
        yield "# " + column_line(*column, len(rows))


def comma_decimals(kept, header, rows):
    """Whether decimals are written as 12,5."""
    scaled = {said for _, said, kind, _ in kept if kind.startswith("scale")}
    places = [place for place, cell in enumerate(header) if cell.strip() in scaled]
    return any("," in row[place] for row in rows for place in places)


def run(path):
    """Writes FIELDS to begin with."""
    output = raw.Output()
    for line in lines(path):
        output.add(line + "\n")
    output.flush()
