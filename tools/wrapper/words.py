"""Which words are a command of the program: as it reads them itself, before there is a program."""
import os
import re

SIZES = {"--task": (1, 65_536), "--ring": (1, 1_024), "--threads": (0, 64)}
RUN = {**SIZES, "--max-lines": (1, 2**40), "--slack": (0, 2**40)}
# What each command takes: the least and the most names or numbers, its options with their ranges, its options without a value.
COMMANDS = {
    "run": ((2, 3), RUN, {"--final"}),
    "many": ((2, 9), {**RUN, "--threads": (0, 8)}, {"--final"}),
    "chain": ((3, 4), RUN, set()),
    "check": ((1, 1), {}, set()),
    "demo": ((2, 2), SIZES, set()),
}
# The two numbers of `demo`.
DEMO = [(0, 2_147_483_647), (0, 1_048_576)]
# What the program says of all words that are no command.
USAGE = "saber: usage: saber run QUERY LEFT [RIGHT] | check QUERY | demo SEED ROWS\n"


class NoCommand(Exception):
    """Words that are no command."""


def is_number(text, least, most):
    return bool(re.fullmatch(r"\+?[0-9]+", text, re.ASCII)) and least <= int(text[-20:].lstrip("+")) <= most and not text[:-20].strip("+0")


def parts(words):
    """The names of a command, and its options with their values. Words that are none of either raise NoCommand."""
    if not words or words[0] not in COMMANDS:
        raise NoCommand
    _, ranges, flags = COMMANDS[words[0]]
    names, options, rest = [], {}, list(words[1:])
    while rest:
        word = rest.pop(0)
        if word == "--":
            names += rest
            break
        if len(word) < 2 or not word.startswith("-"):
            names.append(word)
            continue
        option, given, value = word.partition("=")
        if option in options or not (option in ranges or option in flags and not given):
            raise NoCommand
        if option in ranges and not given:
            value = rest.pop(0) if rest else ""
        if option in ranges and not is_number(value, *ranges[option]):
            raise NoCommand
        options[option] = value
    return names, options


def is_command(words):
    """Whether the program takes these words, whatever comes of their files."""
    try:
        for word in words:
            os.fsencode(word).decode("utf-8")
        names, _ = parts(words)
    except (NoCommand, UnicodeDecodeError):
        return False
    least, most = COMMANDS[words[0]][0]
    if words[0] == "demo" and len(names) == 2:
        return all(is_number(name, *bounds) for name, bounds in zip(names, DEMO))
    return least <= len(names) <= most


def files_of_rows(words):
    """The files of rows that a command names: words that are a command."""
    names = parts(words)[0]
    return {"run": names[1:], "many": names[:1], "chain": names[2:]}.get(words[0], [])
