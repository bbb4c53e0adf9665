"""The words of a command line, as docs/help.txt has them, and what is wrong with those that are no command."""
import os
import re

# `many` takes so many queries.
QUERIES = 8
# A row of the page: a command with what it takes, or an option with what it does.
COMMAND = re.compile(r"  (\w+) +(\S.*?)(?:  +.*)?$")
OPTION = re.compile(r"  (--[a-z-]+)( [A-Z])? +(.*)$")
RANGE = re.compile(r"\b([\d^]+) to\s+([\d^]+)")
# How the files of each command are called in notes.
ROLES = {
    "run": ["query", "left", "right"],
    "check": ["query"],
    "chain": ["query", "second query", "left", "right"],
    "many": ["left", *(f"query {number}" for number in range(1, QUERIES + 1))],
    "demo": [],
}


def number(text):
    """A number of the page, such as 2^40."""
    base, _, power = text.partition("^")
    return int(base) ** int(power or 1)


class Page:
    """The page of help: each command's usage, and each option's range."""

    def __init__(self, text):
        rows = text.splitlines()
        self.text = text
        self.commands = re.findall(r"^  ([a-z]+)\b", text.partition("\nOptions")[0], re.M)
        self.usages = {found[1]: found[2].strip() for found in map(COMMAND.match, rows) if found and found[1] in ROLES}
        self.options = {found[1]: found[3] if found[2] else "" for found in map(OPTION.match, rows) if found}

    def usage(self, command):
        return f"saber {command} {self.usages[command]}"

    def takes(self, command):
        """The options of a command."""
        usage = self.usages[command]
        given = re.findall(r"--[a-z-]+", usage)
        return given + [it for it in self.options if "[OPTIONS]" in usage and it != "--final"]

    def range(self, command, option):
        """The least and the most number that an option takes."""
        told = self.options[option]
        own = re.search(rf"\b{command}: ", told)
        return [number(it) for it in RANGE.search(told, own.end() if own else 0).groups()]

    def names(self, command):
        """What is wanted behind a command, and what more may stand there."""
        usage = self.usages[command]
        wanted = re.findall(r"[A-Z]+[0-9]?", re.sub(r"\[[^]]*\]", "", usage))
        more = re.findall(r"\[([A-Z]+)\]", usage.replace("[OPTIONS]", ""))
        return wanted, more + ["QUERY"] * ((QUERIES - 1) * (".." in usage))

    def bounds(self, name):
        """The range of a word that is a number and no option, such as SEED."""
        found = re.search(rf"\b{name} (?:is )?([\d^]+) to\s+([\d^]+)", self.text)
        return [number(it) for it in found.groups()] if found else None


class Call:
    """A command line: its command, its files and its options."""

    def __init__(self, page, words):
        self.page, self.words = page, words
        self.command = words[0] if words and words[0] in ROLES else ""
        self.plain, self.options, self.wrong = [], {}, ""
        self.read(list(words[1:]))

    def read(self, rest):
        while rest:
            word = rest.pop(0)
            if word == "--":
                self.plain += rest
                return
            if word.startswith("-") and word != "-":
                self.take_option(word, rest)
            else:
                self.plain.append(word)

    def take_option(self, word, rest):
        option, equals, value = word.partition("=")
        valued = option in self.page.options and option != "--final"
        if valued and not equals:
            value = rest.pop(0) if rest else ""
        wrong = self.command and self.judged(option, equals, value)
        self.wrong = self.wrong or wrong
        self.options[option] = value

    def judged(self, option, equals, value):
        """What is wrong with an option and its value, if something is."""
        takes = self.page.takes(self.command)
        if option not in takes:
            others = [it for it in self.page.usages if option in self.page.takes(it)]
            told = f"; these do: {', '.join(others)}" if others else f": it takes {' '.join(takes) or 'no option'}"
            return f"{self.command} takes no {option}{told}"
        if option in self.options:
            return f"{option} stands there twice"
        if option == "--final":
            return "--final has no value" if equals else ""
        least, most = self.page.range(self.command, option)
        if not value:
            return f"{option} wants a number behind it, {least} to {most}"
        if not re.fullmatch(r"\+?[0-9]+", value) or not least <= int(value) <= most:
            return f"{option} takes a number from {least} to {most}, without a unit, and not '{value}'"
        return ""

    def file(self, role, place=""):
        """The name of the file that a note calls so; `place` is the number of a query of `many`."""
        role = f"query {place}" if place and role == "query" else role
        roles = ROLES.get(self.command, [])
        at = roles.index(role) if role in roles else len(self.plain)
        return self.plain[at] if at < len(self.plain) else ""


def wrong_command(call):
    """What is wrong where the first word is no command."""
    commands = ", ".join(call.page.commands)
    if not call.words:
        return f"a command is missing: {commands}"
    first = call.words[0]
    if first.startswith("-"):
        return f"a command stands first, then its options: {commands}"
    if first in call.page.commands:
        return f"{first} is a command of the wrapper `saber`, and not of the program alone"
    if os.path.exists(first):
        return f"{first} is a file, and a command stands before it: saber run {' '.join(call.words)}"
    return f"there is no command '{first}', as it is written: {commands}"


def wrong_number(call):
    """What is wrong with the numbers behind a command that takes them in place of files."""
    for name, value in zip(call.page.names(call.command)[0], call.plain):
        bounds = call.page.bounds(name)
        if bounds and not (re.fullmatch(r"\+?[0-9]+", value) and bounds[0] <= int(value) <= bounds[1]):
            return f"{name} is a number from {bounds[0]} to {bounds[1]}, and not '{value}'"
    return ""


def wrong_files(call):
    """What is wrong with the number of words that are no options."""
    wanted, more = call.page.names(call.command)
    have = len(call.plain)
    if have < len(wanted):
        missing = wanted[have]
        there = [f"{name} is {word}" for name, word in zip(wanted, call.plain)]
        where = ["standard input is named /dev/stdin"] * (missing == "LEFT")
        return f"{missing} is missing" + (f": {'; '.join(there + where)}" if there + where else "")
    if have > len(wanted) + len(more):
        return f"{have} names stand behind {call.command}, which takes {len(wanted) + len(more)} at most: {' '.join(call.plain)}"
    return ""


def told(call):
    """The lines on words that are no command."""
    if not call.command:
        return [wrong_command(call), "saber help tells what each command takes"]
    wrong = call.wrong or wrong_files(call) or wrong_number(call) or "these words are no command"
    return [wrong, f"usage: {call.page.usage(call.command)}"]
