#!/usr/bin/env python3
"""rows.py: what stands beside the program `saber`, outside its proof: raw files to rows, answers to what people read.

    rows.py rows FIELDS [RAW.csv] [--slack S] [--late FILE]
    rows.py rows --guess RAW.csv
    rows.py answers FIELDS QUERY.. [--right FIELDS] [--table|--csv|--json|--bars N]
    rows.py tick EVERY COLUMNS

help.txt is the page of help. Each command has a module; this reads the words and tells the end.
"""
import argparse
import os
import signal
import sys

from faults import WORDS, Closed, Fault

HELP = os.path.join(os.path.dirname(os.path.abspath(__file__)), "help.txt")


class Words(argparse.ArgumentParser):
    """The words of a command; others end it with status 2."""

    def __init__(self, command, usage):
        super().__init__(prog=f"saber {command}", usage=usage, add_help=False, allow_abbrev=False)

    def error(self, message):
        raise Fault(WORDS, f"{message}; usage: {self.usage}")


def number(least, most):
    """A reader of a word that is a number in this range."""
    def read(word):
        if not (word.isascii() and word.isdigit() and len(word) < 20 and least <= int(word) <= most):
            raise argparse.ArgumentTypeError(f"{word!r} isn't a number from {least} to {most}")
        return int(word)
    return read


def rows(given):
    """The rows of a raw file, or FIELDS to begin with."""
    words = Words("rows", "saber rows FIELDS [RAW.csv] [--slack S] [--late FILE], or saber rows --guess RAW.csv")
    words.add_argument("fields", nargs="?")
    words.add_argument("raw", nargs="?")
    words.add_argument("--slack", type=number(0, 2**40))
    words.add_argument("--late")
    words.add_argument("--guess")
    said = words.parse_args(given)
    if said.guess is not None:
        if said.fields is not None or said.slack is not None or said.late is not None:
            words.error("--guess RAW.csv goes with no other word")
        import guess
        return guess.run(said.guess)
    if said.fields is None:
        words.error("FIELDS is missing")
    import convert
    if said.late is not None and said.slack is None:
        said.slack = 0
    conversion = convert.Conversion(said.fields, said.raw, said.slack, said.late)
    try:
        conversion.run()
    finally:
        tell("rows", conversion.late.told())


def answers(given):
    """Answers with a header, times, texts and decimals."""
    words = Words("answers", "saber answers FIELDS QUERY.. [--right FIELDS] [--table|--csv|--json|--bars N]")
    words.add_argument("fields")
    words.add_argument("queries", nargs="+")
    words.add_argument("--right")
    form = words.add_mutually_exclusive_group()
    for name in ("table", "csv", "json"):
        form.add_argument(f"--{name}", dest="form", action="store_const", const=name)
    form.add_argument("--bars", type=number(1, 32))
    said = words.parse_args(given)
    import answers as command
    command.run(said.fields, said.right, said.queries, said.form, said.bars)


def tick(given):
    """Rows passed on, and rows of the time where none come."""
    words = Words("tick", "saber tick EVERY COLUMNS, such as saber tick 10s 4")
    words.add_argument("every")
    words.add_argument("columns", type=number(1, 32))
    said = words.parse_args(given)
    import tick as command
    command.run(said.every, said.columns)


COMMANDS = {"rows": rows, "answers": answers, "tick": tick}


def tell(command, text):
    """Tells a line on standard error."""
    if text:
        print(f"saber {command}: {text}", file=sys.stderr)


def main(given):
    """Runs a command, and gives its status."""
    if not given or given[0] in ("help", "-h", "--help") or "--help" in given:
        with open(HELP, encoding="utf-8") as page:
            print(page.read(), end="")
        return 0
    command, *rest = given
    if command not in COMMANDS:
        tell(command, f"no command; there are {', '.join(COMMANDS)}")
        return WORDS
    try:
        COMMANDS[command](rest)
    except Closed:
        return 0
    except Fault as fault:
        tell(command, str(fault))
        return fault.status
    return 0


if __name__ == "__main__":
    signal.signal(signal.SIGINT, signal.SIG_DFL)
    sys.exit(main(sys.argv[1:]))
