"""What the cells of a column mean, by its kind: whole numbers of 64 bits."""
import re

import times
from faults import Wrong, shown

LEAST, MOST, MOST_TIME = -(2**63), 2**63 - 1, 2**62
DECIMAL = re.compile(r"\s*([+-]?)(\d*)\.?(\d*)(?:[eE]([+-]?\d{1,3}))?\s*", re.ASCII).fullmatch
LONGEST = 400


def whole(cell):
    """The number of a cell of digits."""
    if cell.isascii() and "_" not in cell:
        try:
            return int(cell)
        except ValueError:
            pass
    raise Wrong(f"{shown(cell)} is no whole number")


def decimal_reader(digits, comma):
    """A function from a cell to its decimal times 10^digits, exactly."""
    point, zeros = "," if comma else ".", ["0" * (digits - given) for given in range(digits + 1)]

    def other(cell):
        """A decimal that isn't written as 12.5."""
        match = DECIMAL(cell.replace(",", ".") if comma and "." not in cell else cell)
        if not match or not (match[2] or match[3]) or len(cell) > LONGEST or (comma and "." in cell):
            raise Wrong(f"{shown(cell)} is no decimal as 12{point}5")
        sign, before, behind, power = match.groups()
        shift = digits + int(power or 0) - len(behind)
        number, rest = (int(before + behind) * 10**max(shift, 0), 0)
        if shift < 0:
            number, rest = divmod(number, 10**-shift)
        if rest:
            raise Wrong(f"{shown(cell)} has more than {digits} digits behind the point")
        return -number if sign == "-" else number

    def read(cell):
        before, _, behind = cell.partition(point)
        if behind.isdecimal() and cell.isascii() and "_" not in before:
            try:
                return int(before + behind + zeros[len(behind)])
            except (ValueError, IndexError):
                pass
        return other(cell)

    return read


def why_not(value, least):
    """Why a value is out of the bounds of a column, the least one of which is this."""
    if value < least:
        return "before 1970, or negative: the first column is the time" if least == 0 else "below -2^63"
    return "above 2^62: the first column is the time" if least == 0 else "2^63 or more"


def reader(kind, comma):
    """A function from a cell to the number of a column of this kind, which may be out of its bounds."""
    if kind.name == "time":
        return times.reader(kind.unit, kind.zone)
    read = decimal_reader(kind.digits, comma) if kind.name == "scale" else whole
    if kind.empty is None:
        return read
    return lambda cell: read(cell if cell.strip() else kind.empty)
