"""Times as people write them, to and from whole numbers since 1970, by whole numbers alone."""
import re
from datetime import datetime, timedelta, timezone
from zoneinfo import ZoneInfo

from faults import Wrong, shown
from kinds import DIGITS

END = r"(?:[.,](\d+))? ?(Z|z|UTC|GMT|[+-]\d\d(?::?\d\d)?)?(?:\[([\w/+-]+)\])?\s*"
ISO = re.compile(r"\s*(\d{4}-\d\d-\d\d)(?:[Tt ](\d\d:\d\d)(?::(\d\d))?)?" + END, re.ASCII).fullmatch
FIRST, LAST = (re.compile(text, re.ASCII).fullmatch for text in (r"\d{4}-\d\d-\d\d[Tt ]\d\d:\d\d", END))
BEGIN, SECOND, UTC = datetime(1970, 1, 1), timedelta(seconds=1), timezone.utc
LAST_SECOND = (datetime(9999, 12, 30) - BEGIN) // SECOND
KEPT = 4096


def zone_named(name):
    """The zone of a name such as Europe/Berlin."""
    if name == "UTC":
        return UTC
    try:
        return ZoneInfo(name)
    except (KeyError, ValueError, OSError):
        raise Wrong(f"no zone {name}") from None


def offset_seconds(text):
    """How many seconds an offset such as Z or +01:00 is ahead of UTC."""
    if text[0] not in "+-":
        return 0
    hours, minutes = int(text[1:3]), int(text[-2:]) if len(text) > 3 else 0
    if hours > 23 or minutes > 59:
        raise Wrong(f"no offset {text}")
    return (hours * 3600 + minutes * 60) * (-1 if text[0] == "-" else 1)


def zone_seconds(local, zone):
    """How many seconds a zone's clock is ahead of UTC where it shows this."""
    first, second = (local.replace(tzinfo=zone, fold=fold).utcoffset() for fold in (0, 1))
    if first != second:
        often = "twice" if first > second else "never"
        raise Wrong(f"{often} shown by the clock of {zone}: write its offset")
    return first // SECOND


class Minutes(dict):
    """Minutes as written, such as 2026-11-30T12:34, in units since 1970, by an offset or a zone."""

    def __init__(self, whole, offset, zone):
        super().__init__()
        self.whole, self.zone, self.ahead = whole, zone, offset_seconds(offset) if offset else None

    def __missing__(self, text):
        if not FIRST(text):
            raise KeyError
        local = datetime.fromisoformat(text)
        ahead = zone_seconds(local, self.zone) if self.ahead is None else self.ahead
        if len(self) >= KEPT:
            self.clear()
        value = self[text] = ((local - BEGIN) // SECOND - ahead) * self.whole
        return value


class Ends(dict):
    """What stands behind the seconds of a time, such as .250+01:00: the minutes of its clock, and its fraction."""

    def __init__(self, unit, zone):
        super().__init__()
        self.digits, self.zone, self.minutes = DIGITS[unit], zone, {}

    def __missing__(self, text):
        match = LAST(text)
        if not match:
            raise KeyError
        if len(self) >= KEPT:
            self.clear()
        value = self[text] = self.of(*match.groups())
        return value

    def of(self, fraction, offset, named):
        """The minutes and the fraction of such an end, rounded down to the unit."""
        if not (offset or named or self.zone):
            raise Wrong("no offset: write `in ZONE` behind the unit, such as `in UTC`")
        clock = (offset, named)
        if clock not in self.minutes:
            zone = zone_named(named) if named and not offset else self.zone
            self.minutes[clock] = Minutes(10**self.digits, offset, zone)
        return self.minutes[clock], int(((fraction or "") + "0" * self.digits)[:self.digits] or 0)


def reader(unit, zone):
    """A function from a cell to its time in the unit, rounded down; digits alone are that number already."""
    whole, ends = 10**DIGITS[unit], Ends(unit, zone)
    seconds = {f":{second:02}": second * whole for second in range(60)}

    def other(cell):
        """A time that isn't written with seconds, or with spaces around."""
        match = ISO(cell)
        if not match:
            raise Wrong("no time as 2026-11-30T12:34:56Z")
        day, minute, second, *end = match.groups()
        if end[0] and not second:
            raise Wrong("a fraction without seconds")
        minutes, fraction = ends.of(*end)
        return minutes[f"{day}T{minute or '00:00'}"] + seconds[f":{second or '00'}"] + fraction

    def read(cell):
        if cell.isdecimal() and cell.isascii() and len(cell) < 40:
            return int(cell)
        try:
            minutes, fraction = ends[cell[19:]]
            return minutes[cell[:16]] + seconds[cell[16:19]] + fraction
        except (KeyError, ValueError):
            pass
        try:
            return other(cell)
        except Wrong as why:
            raise Wrong(f"{shown(cell)}: {why}") from None
        except (KeyError, ValueError):
            raise Wrong(f"{shown(cell)}: no time") from None

    return read


def written(value, unit, zone):
    """A time in the unit as ISO 8601, by the clock of the zone; a number that no calendar has stays one."""
    digits = DIGITS[unit]
    seconds, fraction = divmod(value, 10**digits)
    if not 0 <= seconds <= LAST_SECOND:
        return str(value)
    moment = (BEGIN + seconds * SECOND).replace(tzinfo=UTC)
    in_utc = zone in (None, UTC)
    text = (moment if in_utc else moment.astimezone(zone)).isoformat()
    text = text.replace("+00:00", "Z") if in_utc else text
    return f"{text[:19]}.{fraction:0{digits}}{text[19:]}" if digits else text
