"""The pages of `man`: saber(1), made of docs/help.txt and examples and ends of the documents, and saber-query(7), made of docs/LANGUAGE.md."""
import os
import re

import markdown
import places
from markdown import inline, typed

ENVIRONMENT = [
    ("SABER_HINTS", "With the value 1 a refused call is explained below its note, also where standard error is no terminal."),
]
FILES = [
    ("PREFIX/libexec/saber/saber", "the program"),
    ("PREFIX/share/saber/BUILD", "what it was built of, whether it is proved, and its sha256"),
    ("PREFIX/share/doc/saber", "documents and examples"),
]
ROWS = "tools/rows/help.txt"
# The commands that have an example each.
SHOWN = ["run", "chain", "many"]


def head(name, section):
    return f'.TH {name.upper()} {section} "" "saber {places.version()}"'


def entry(line):
    """A line of the page of help: what is typed and, behind the last two spaces in a row, what it does."""
    *words, does = re.split(r"  +", line.strip())
    return [".TP", ".B " + typed(" ".join(words)), typed(does)]


def parts_of_help():
    """The lines of the commands, those of the options, and those that follow."""
    found = [[], [], []]
    part = 0
    for line in places.text_of("docs/help.txt").splitlines()[1:]:
        if line.startswith("Options"):
            part = 1
        elif part == 1 and line and not line.startswith(" "):
            part = 2
        if line and not line.startswith("Options"):
            found[part].append(line)
    return found


def first_example(blocks, command):
    """The first example of a command: what is said of it, and its text."""
    for (before, said), (kind, lines) in zip(blocks, blocks[1:]):
        if kind == "code console" and any(re.search(rf"saber {command} ", it) for it in lines):
            return [*(markdown.as_paragraph(said) if before == "paragraph" else []), *markdown.as_code(lines)]
    return []


def exit_status():
    """The statuses and when each comes, of the table of ends."""
    ends = places.text_of("docs/RULES.md").partition("## Ends")[2]
    rows = [lines for kind, lines in markdown.blocks(ends) if kind == "table"][0][2:]
    causes = {}
    for status, when, _ in map(markdown.cells, rows):
        causes.setdefault(status, []).append(when)
    return [line for status, told in causes.items() for line in (".TP", f".B {status}", inline("; ".join(told)))]


def of_rows():
    """The page of help of what stands beside the program, where the repository has it."""
    if not os.path.exists(f"{places.TOP}/{ROWS}"):
        return []
    return [".SH ROWS, ANSWERS, TICK", *markdown.as_code(places.text_of(ROWS).splitlines()[2:])]


def saber():
    commands, options, rest = parts_of_help()
    language = markdown.blocks(places.text_of("docs/LANGUAGE.md"))
    return "\n".join([
        head("saber", 1), ".SH NAME", "saber \\- answers windowed queries over streams of whole numbers",
        ".SH SYNOPSIS", ".B saber", ".I COMMAND ..",
        ".SH COMMANDS", *[line for it in commands for line in entry(it)],
        ".SH OPTIONS", "Each with its range and what holds without it.", *[line for it in options for line in entry(it)],
        ".SH OPERANDS", *map(typed, rest), *of_rows(),
        ".SH EXAMPLES", "The files are those of PREFIX/share/doc/saber.", *[line for it in SHOWN for line in first_example(language, it)],
        ".SH EXIT STATUS", *exit_status(),
        ".SH ENVIRONMENT", *[line for name, does in ENVIRONMENT for line in (".TP", f".B {name}", typed(does))],
        ".SH FILES", *[line for name, does in FILES for line in (".TP", f".I {typed(name)}", typed(does))],
        ".SH SEE ALSO", ".BR saber\\-query (7)", "",
    ])


def saber_query():
    return "\n".join([
        head("saber-query", 7), ".SH NAME", "saber\\-query \\- the language of the queries that saber answers, by examples",
        ".SH DESCRIPTION", *markdown.page_of(places.text_of("docs/LANGUAGE.md")), ".SH SEE ALSO", ".BR saber (1)", "",
    ])
