"""pages.py [COMMAND ..]: prints the page of help, or that of a command, which is made of it."""
import re
import sys

import places


def rows(page):
    """The lines of the commands, those of the options, and what follows."""
    commands, options, rest = [], [], []
    part = commands
    for line in page.splitlines():
        if line.startswith("Options"):
            part = options
        elif part is options and line and not line.startswith(" "):
            part = rest
        part.append(line)
    return [it for it in commands if it.startswith("  ")], options, rest


def usage(line):
    """What is typed, and what comes of it: the last two spaces in a row are between them."""
    typed, _, done = line.strip().rpartition("  ")
    return " ".join(typed.split()), done


def taken(typed, options):
    """The lines of the options that a command takes."""
    named = set(re.findall(r"--[a-z-]+", typed))
    every = "[OPTIONS]" in typed
    return [it for it in options if it.split()[:1] and (it.split()[0] in named or every and it.startswith("  --") and it.split()[0] != "--final")]


def of_command(page, command):
    """The page of a command, or nothing where there is no such command."""
    commands, options, rest = rows(page)
    own = [usage(line) for line in commands if line.split()[0] == command]
    if not own:
        return ""
    text = [f"Usage: saber {typed}" for typed, _ in own]
    text += ["", *[f"{done[:1].upper()}{done[1:]}." for _, done in own]]
    lines = taken(own[0][0], options)
    if lines:
        text += ["", options[0], *lines]
    if re.search(r"QUERY|SEED", own[0][0]):
        text += ["", *rest]
    return "\n".join(text) + "\n"


def refuse(command):
    """Prints the page of a command, or the whole page, where its words are none; returns the status of such words."""
    page = places.text_of(places.HELP)
    print(of_command(page, command) or page, end="", file=sys.stderr, flush=True)
    return 2


def main(words):
    page = places.text_of(places.HELP)
    if not words:
        print(page, end="")
        return 0
    own = of_command(page, words[0])
    if own:
        print(own, end="")
        return 0
    places.say(f"there is no command {words[0]!r}")
    return refuse("")


if __name__ == "__main__":
    sys.exit(main(sys.argv[1:]))
