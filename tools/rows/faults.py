"""What ends a command: a status, and a line that names the place."""

WORDS, FIELDS, ROW, FILE, WRITE = 2, 3, 4, 5, 6


class Fault(Exception):
    """The end of a command before its input's: the status, and what is told."""

    def __init__(self, status, text):
        super().__init__(text)
        self.status = status


class Closed(Exception):
    """Nobody reads standard output any more: the command ends, and tells nothing."""


class Wrong(ValueError):
    """A cell that can't be read as its column asks; the text says why."""


def file_fault(name, error):
    """The fault of a file that can't be opened, read or written."""
    return Fault(FILE, f"{name}: {(error.strerror or str(error)).lower()}")


def shown(cell):
    """A cell as it stands in a note: in quotes, and short."""
    return repr(cell if len(cell) <= 40 else cell[:37] + "...")
