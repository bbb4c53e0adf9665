"""Files that are read again: regular ones alone, and of these no more than is shown."""
import os
import stat

WIDTH = 100
BEFORE = 60
PIECE = 1 << 20


def is_regular(name):
    try:
        return stat.S_ISREG(os.stat(name).st_mode)
    except (OSError, ValueError):
        return False


def front(name, most):
    """The first bytes of a file, or None where it isn't a regular one that can be read."""
    if not is_regular(name):
        return None
    try:
        with open(name, "rb") as file:
            return file.read(most)
    except OSError:
        return None


def plain(text):
    """Text as a terminal may show it, a sign for each of its letters."""
    return "".join(" " if letter == "\t" else letter if letter.isprintable() and letter != "\ufffd" else "?" for letter in text)


def decoded(data):
    return plain(data.decode("utf-8", "replace"))


def shown(name, text, byte):
    """The line of a text that has the byte, with a ^ under it."""
    byte = min(byte, len(text))
    start = text.rfind(b"\n", 0, byte) + 1
    end = text.find(b"\n", byte)
    line = decoded(text[start:end if end >= 0 else len(text)].removesuffix(b"\r"))
    column = len(decoded(text[start:byte]))
    cut = max(0, column - BEFORE) if len(line) > WIDTH else 0
    number = text.count(b"\n", 0, byte) + 1
    place = f"{name}, line {number}, column {column + 1}:"
    return [place, "  " + line[cut:cut + WIDTH], "  " + " " * (column - cut) + "^"] if line.strip() else [place]


def line_of(name, number, most):
    """The bytes of a file's line, at most so many, with its line feed; None where there is none."""
    left = number - 1
    with open(name, "rb") as file:
        while left:
            piece = file.read(PIECE)
            if not piece:
                return None
            count = piece.count(b"\n")
            if count < left:
                left -= count
                continue
            at = -1
            for _ in range(left):
                at = piece.index(b"\n", at + 1)
            file.seek(at + 1 - len(piece), os.SEEK_CUR)
            break
        return file.readline(most) or None
