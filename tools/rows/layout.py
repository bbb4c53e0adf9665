"""From FIELDS and a header to one function, which makes the row of a record.

Its text is generated from places of cells and from checked trees: no word of FIELDS or of a file stands in it. That of
`second = t time s`, `meter = m text`, `twice = second * 2` over the header m,t,x is

    def row(cells):
        c0, c1, _, = cells
        t0 = r0(c1)
        if not 0 <= t0 <= 4611686018427387904: raise Unfit(0, t0)
        v0 = t0
        v1 = table[c0]
        t4 = v0 * 2
        if not -9223372036854775808 <= t4 <= 9223372036854775807: raise Unfit(2, t4)
        v2 = t4
        return v0, f"{v0},{v1},{v2}\\n"
"""
import cells
import kinds
from faults import Wrong, shown

SIGNS = {"=": "==", "<>": "!=", "AND": "and", "OR": "or"}


class Layout:
    """The columns of FIELDS over the cells of a header."""

    def __init__(self, fields, header, table, name):
        self.fields, self.header, self.table, self.name = fields, [cell.strip() for cell in header], table, name
        self.places, self.readers, self.lines = {}, {}, []
        for number, column in enumerate(fields.columns):
            self.lines.append(f"v{number} = {self.source(number, column)}")
        self.row = self.compiled()

    def source(self, number, column):
        """The text of a column's value, within the bounds of a column."""
        if column.tree is not None:
            value = self.of_tree(column, column.tree)
        elif column.kind.name == "text":
            return f"table[c{self.place(column, column.header)}]"
        else:
            value = self.put(self.cell(column, column.header, column.kind))
        least, most = bounds(number)
        self.lines.append(f"if not {least} <= {value} <= {most}: raise Unfit({number}, {value})")
        return value

    def cell(self, column, header, kind):
        """The text of the value of a cell."""
        reader, place = f"r{len(self.readers)}", self.place(column, header)
        self.readers[reader] = (place, cells.reader(kind, self.fields.comma))
        return f"{reader}(c{place})"

    def place(self, column, header):
        """The place of a header's cell, from 0."""
        found = [place for place, cell in enumerate(self.header) if cell == header]
        if len(found) != 1:
            often, all_of_it = "more than one column" if found else "no column", ",".join(self.header)[:200]
            raise self.fields.fault(column.line, f"{self.name} has {often} {header}; its header is {all_of_it}")
        self.places[header] = found[0]
        return found[0]

    def of_tree(self, column, tree):
        """The text of a tree's value, a number or a name, behind the lines that work it out."""
        if tree[0] == "number":
            return str(tree[1])
        if tree[0] == "text":
            return str(self.table[tree[1]])
        if tree[0] == "name":
            return self.of_name(column, tree[1])
        sides = [self.of_tree(column, side) for side in tree[1:]]
        if tree[0] in ("+", "-", "*"):
            return self.put(f"{sides[0]} {tree[0]} {sides[1]}")
        if tree[0] == "negative":
            return self.put(f"-{sides[0]}")
        if tree[0] == "NOT":
            return self.put(f"0 if {sides[0]} else 1")
        return self.put(f"1 if {sides[0]} {SIGNS.get(tree[0], tree[0])} {sides[1]} else 0")

    def of_name(self, column, name):
        """The value of a column above, or of the whole number in a cell."""
        for number, above in enumerate(self.fields.columns[:self.fields.columns.index(column)]):
            if above.name == name:
                return f"v{number}"
        return self.put(self.cell(column, name, kinds.INT))

    def put(self, source):
        """Adds a line that works out a value, and gives its name."""
        name = f"t{len(self.lines)}"
        self.lines.append(f"{name} = {source}")
        return name

    def compiled(self):
        """The function from the cells of a record to its time and its line."""
        used = set(self.places.values())
        taken = ", ".join(f"c{place}" if place in used else "_" for place in range(len(self.header)))
        line = ",".join("{v%d}" % number for number in range(len(self.fields.columns)))
        body = [f"{taken}, = cells", *self.lines, f'return v0, f"{line}\\n"']
        names = {reader: read for reader, (_, read) in self.readers.items()}
        names |= {"Unfit": Unfit, "table": self.table}
        exec("def row(cells):\n" + "".join(f"    {text}\n" for text in body), names)
        return names["row"]

    def fault(self, record):
        """Why a record that has no row has none: the column, where it is one's fault, and the reason."""
        if len(record) != len(self.header):
            return f": {len(record)} cells, and the header has {len(self.header)}"
        for place, read in self.readers.values():
            try:
                read(record[place])
            except Wrong as why:
                return f", column {self.header[place]}: {why}"
        try:
            self.row(record)
        except Unfit as why:
            column, reason = self.fields.columns[why.number], cells.why_not(why.value, bounds(why.number)[0])
            value = shown(record[self.places[column.header]]) if column.header else str(why.value)[:40]
            return f", column {column.header or column.name}: {value} is {reason}"
        return ": no row"


def bounds(number):
    """The least and the greatest value of a column, the first of which has the time."""
    return (0, cells.MOST_TIME) if number == 0 else (cells.LEAST, cells.MOST)


class Unfit(Wrong):
    """A value that is made and out of the bounds of its column."""

    def __init__(self, number, value):
        super().__init__()
        self.number, self.value = number, value
