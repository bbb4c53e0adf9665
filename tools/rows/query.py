"""A query, read from its own text: the tokens that `saber check` prints, with one space between."""
import os
import shutil
import subprocess
from dataclasses import dataclass

import raw
from faults import FILE, Fault

MOST_BYTES = 65537
HERE = os.path.dirname(os.path.abspath(__file__))


@dataclass
class Query:
    """The columns of each stream, the items of SELECT, the streams of FROM, the tokens of the first one's window."""

    name: str
    columns: dict
    items: list
    sources: list
    window: list


def program():
    """The path of saber: what SABER_PROGRAM says, else the wrapper beside this tree, else what PATH has."""
    wrapper = os.path.join(os.path.dirname(os.path.dirname(HERE)), "saber")
    found = os.environ.get("SABER_PROGRAM") or (wrapper if os.path.isfile(wrapper) else shutil.which("saber"))
    if not found:
        raise Fault(FILE, "no program saber: neither SABER_PROGRAM, nor beside this tree, nor on PATH")
    return found


def own_text(name):
    """The own text of the query in a file, as `saber check` tells it."""
    asked, path = raw.of_bytes(name, MOST_BYTES), program()
    try:
        ran = subprocess.run([path, "check", "/dev/stdin"], input=asked, capture_output=True, check=False)
    except OSError as error:
        raise Fault(FILE, f"{path}: {error.strerror.lower()}") from None
    text, note = (said.decode(**raw.ENCODING).strip() for said in (ran.stdout, ran.stderr))
    if ran.returncode or not text.startswith("STREAM "):
        raise Fault(ran.returncode or FILE, f"{name}: {note.removeprefix('saber: ') or f'{path} told no text of it'}")
    return text


def cut(tokens, sign):
    """Lists of the tokens between signs."""
    found = [[]]
    for token in tokens:
        if token == sign:
            found.append([])
        else:
            found[-1].append(token)
    return found


def of_text(name, text):
    """The query of such a text."""
    tokens, columns = text.split(), {}
    while tokens[0] == "STREAM":
        end = tokens.index(";")
        columns[tokens[1]] = [column for column in tokens[3:end - 1] if column != ","]
        tokens = tokens[end + 1:]
    select, source = tokens.index("SELECT"), tokens.index("FROM")
    items = cut(tokens[select + 1:source], ",")
    tokens = tokens[source + 1:]
    end = next((at for at, token in enumerate(tokens) if token in ("WHERE", "GROUP", ")", ";")), len(tokens))
    sources = from_list(tokens[:end])
    return Query(name, columns, items, [stream for stream, _ in sources], sources[0][1])


def from_list(tokens):
    """The streams of FROM, each with the tokens of its window."""
    found = []
    while tokens:
        end = tokens.index("]") if tokens[1:2] == ["["] else 0
        found.append((tokens[0], tokens[2:end]))
        tokens = tokens[end + 2:]
    return found
