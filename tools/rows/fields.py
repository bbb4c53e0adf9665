"""FIELDS: a text that says what the columns of rows are, one on a line, made of the columns of a file with a header.

    delimiter ;                           what stands between cells, else a comma
    second = timestamp time s             a time, in s, ms, us or ns since 1970
    meter = meter_id text                 a text, by its number in the file of texts
    wh = "energy, kWh" scale 3            a decimal, times 1,000
    n = size int                          a whole number
    high = wh > 2000 AND meter <> "main"  made of the columns above, and of others that are whole numbers
"""
import os
import re
from dataclasses import dataclass, replace
from typing import Any

import expressions
import kinds
import times
from faults import FIELDS, Fault, Wrong
from raw import ENCODING, of_bytes

NAME = re.compile(r"[A-Za-z_][A-Za-z0-9_]*").fullmatch
KEYWORDS = set("""STREAM SELECT FROM WHERE GROUP BY AND OR NOT ROWS RANGE SLIDE COUNT SUM MIN MAX
PARTITION RSTREAM ISTREAM DSTREAM""".split())
COMMENT = re.compile(r'("(?:[^"]|"")*")|(?:^|\s)#.*')
COLUMN = re.compile(r"([^\s=]+)\s*=\s*(.+)")
CELL = re.compile(
    r'(?P<header>"(?:[^"]|"")+"|\S+)\s+(?:int|(?P<text>text)|scale\s+(?P<scale>\d+)'
    r"|time\s+(?P<unit>s|ms|us|ns)(?:\s+in\s+(?P<zone>\S+))?)(?:\s+else\s+(?P<empty>\S+))?")
DELIMITERS = {"tab": "\t", "comma": ",", "space": " "}
MOST_COLUMNS, MOST_SCALE, MOST_BYTES = 32, 18, 1 << 20


@dataclass
class Column:
    """A column of rows: read from the cells under a header, or made by a tree."""

    name: str
    line: int
    kind: Any
    header: Any = None
    tree: Any = None


class Fields:
    """The columns of FIELDS, in order, the delimiter and the file of texts."""

    def __init__(self, path):
        self.path, self.columns, self.delimiter, self.comma = path, [], ",", False
        self.texts = path + ".texts"
        for number, line in enumerate(of_bytes(path, MOST_BYTES).decode(**ENCODING).split("\n"), 1):
            try:
                self.take(number, COMMENT.sub(lambda it: it[1] or "", line.removeprefix("\ufeff")).strip())
            except Wrong as why:
                raise self.fault(number, why) from None
        if not self.columns:
            raise Fault(FIELDS, f"{path}: no column")
        self.look_up()

    def look_up(self):
        """Tells the columns of the file of texts; no expression may have a column that stands below it."""
        for number, column in enumerate(self.columns):
            if column.kind.name == "text":
                column.kind = replace(column.kind, texts=self.texts)
            below = {other.name for other in self.columns[number + 1:]}
            for name in expressions.names(column.tree) if column.tree else []:
                if name in below:
                    raise self.fault(column.line, f"{name} stands below: put its line above this one")

    def fault(self, line, why):
        """A fault of this line."""
        return Fault(FIELDS, f"{self.path} line {line}: {why}")

    def take(self, number, line):
        """Takes in a line that has no comment any more."""
        column, (word, rest) = COLUMN.fullmatch(line), (line.split(None, 1) + ["", ""])[:2]
        if column:
            self.take_column(number, column[1], column[2])
        elif word == "delimiter" and len(DELIMITERS.get(rest, rest)) == 1 and rest != '"':
            self.delimiter = DELIMITERS.get(rest, rest)
        elif (word, rest) == ("decimal", "comma"):
            self.comma = True
        elif word == "texts" and rest:
            self.texts = os.path.join(os.path.dirname(self.path), rest)
        elif line:
            raise Wrong("neither NAME = .., delimiter, decimal comma, nor texts FILE")

    def take_column(self, number, name, said):
        """Takes in the line of a column."""
        if not NAME(name):
            raise Wrong(f"{name} is no name: a letter or _, then letters, digits and _")
        if name.upper() in KEYWORDS:
            raise Wrong(f"{name} is a keyword of queries, so no column can have it as its name")
        if self.find(name):
            raise Wrong(f"{name} stands above")
        if len(self.columns) == MOST_COLUMNS:
            raise Wrong(f"more than {MOST_COLUMNS} columns")
        cell = CELL.fullmatch(said)
        column = self.of_cells(cell) if cell else self.made(said)
        if not self.columns and column.kind.name == "text":
            raise Wrong("the first column is the time, and no text")
        column.name, column.line = name, number
        self.columns.append(column)

    def of_cells(self, said):
        """A column that is read from cells."""
        header = said["header"]
        if len(header) > 1 and header[0] == header[-1] == '"':
            header = header[1:-1].replace('""', '"')
        kind = kinds.INT
        if said["text"]:
            kind = kinds.Kind("text")
        elif said["unit"]:
            kind = kinds.Kind("time", unit=said["unit"], zone=said["zone"] and times.zone_named(said["zone"]))
        elif said["scale"]:
            if int(said["scale"]) > MOST_SCALE:
                raise Wrong(f"a scale is at most {MOST_SCALE}")
            kind = kinds.Kind("scale", digits=int(said["scale"]))
        if said["empty"] is not None:
            if kind.name in ("text", "time"):
                raise Wrong(f"an empty {kind.name} has no `else`")
            kind = replace(kind, empty=said["empty"])
        return Column("", 0, kind, header=header)

    def made(self, said):
        """A column that is made by an expression."""
        try:
            tree = expressions.parse(said)
        except Wrong as why:
            raise Wrong(f"neither HEADER KIND (time s|ms|us|ns, int, scale D, text) nor an expression: {why}") from None
        return Column("", 0, kinds.of_tree(tree, self.kind_of), tree=tree)

    def find(self, name):
        """The column of a name, where there is one."""
        return next((column for column in self.columns if column.name == name), None)

    def kind_of(self, name):
        """The kind of a name in an expression: that of a column above, else a whole number."""
        column = self.find(name)
        return column.kind if column else kinds.INT

    def has_texts(self):
        """Whether a column or an expression has texts."""
        return any(column.kind.name == "text" or has_text(column.tree) for column in self.columns)


def has_text(tree):
    """Whether a text stands in a tree."""
    return bool(tree) and (tree[0] == "text" or any(has_text(part) for part in tree[1:] if isinstance(part, tuple)))
