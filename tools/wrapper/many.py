"""many.py WORDS..: whether `many` may write its answers: status 2 and a line, where one would be written over what is read or another.

`many` writes the answer of QUERY into QUERY.out, and over what was there.
"""
import os
import sys

import places
import words


def same_of(name):
    """What a file is, however it is named: where there is none, the place where it would be made."""
    try:
        told = os.stat(name)
        return told.st_dev, told.st_ino
    except (OSError, ValueError):
        return os.path.realpath(name) if "\0" not in name else name


def fault(left, queries):
    """Why these answers can't be written, or nothing."""
    read = {same_of(query): query for query in reversed(queries)}
    read[same_of(left)] = left
    written = {}
    for number, query in enumerate(queries, 1):
        out = f"{query}.out"
        same = same_of(out)
        if same in read:
            return f"query {number}: its answer would be written over {read[same]}, which is read"
        if same in written:
            return f"queries {written[same]} and {number}: the answers of both would be written to {out}"
        written[same] = number
    return ""


def main(given):
    if not words.is_command(given):
        return 0
    names = words.parts(given)[0]
    why = fault(names[0], names[1:])
    if why:
        places.say(why)
    return 2 if why else 0


if __name__ == "__main__":
    sys.exit(main(sys.argv[1:]))
