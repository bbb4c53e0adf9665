#!/usr/bin/env python3
"""explain.py STATUS NOTE WORDS..: says on standard error where and why a call of `saber` went wrong, by its status, its note and its words.

It reads files again, regular ones alone; it changes nothing, and prints nothing where it can't tell.
"""
import errno
import os
import re
import sys

sys.dont_write_bytecode = True
HERE = os.path.dirname(os.path.realpath(__file__))
sys.path.insert(0, HERE)
import lines
import places
import queries
import slips
import words

# The page of help, in the repository or where it was installed.
PAGES = [f"{HERE}/../../docs/help.txt", f"{HERE}/../help.txt"]
PAGE = 1 << 16


def of_words(call, _):
    return words.told(call)


def of_count(call, note):
    query = call.file("query")
    text = places.front(query, queries.LIMIT)
    named = f" ({', '.join(queries.Query(text).sources())})" if text else ""
    counts = f"streams in FROM of {query}: {note['streams']}{named}; files of rows that are given: {note['files']}"
    return [counts, f"usage: {call.page.usage(call.command)}"]


def of_query(call, note):
    second = note["role"] == "second query"
    name = call.file(note["role"], note["place"])
    which = 2 if second else 1 if call.command == "chain" else 0
    return queries.told(name, int(note["byte"]), note["cause"], slips.WHOLE.get((call.command, which), ""), call.page.usage(call.command))


def of_row(call, note):
    query = call.file("query", "1" if call.command == "many" else "")
    return lines.told(call.file(note["role"]), int(note["line"]), note["cause"], query, 1 if note["role"] == "right" else 0)


def of_line_between(call, note):
    return lines.told_between(note["cause"], call.file("query"), call.file("second query"))


def reason(name):
    """Why a file can't be opened or read, as the system says."""
    try:
        os.stat(name)
        if os.path.isdir(name):
            return os.strerror(errno.EISDIR)
        if not places.is_regular(name):
            return "it is no regular file, so it isn't tried again"
        with open(name, "rb") as file:
            file.read(1)
        return "it can be read now"
    except OSError as error:
        return error.strerror
    except ValueError:
        return "no file has such a name"


def of_file(call, note):
    name = call.file(note["role"], note["place"])
    told = [f"{name[:places.WIDTH]}: {reason(name)}"]
    if name == "-":
        told.append("standard input is named /dev/stdin")
    if re.search(r"\b(STREAM|SELECT)\b", name, re.I) and " " in name:
        told.append("a query is given as a file, such as <(echo 'STREAM S(time, a); SELECT a FROM S')")
    return told


def out_of(call, note):
    """The name of the file that a query of `many` is answered into."""
    return call.file("query", note["place"]) + ".out"


def of_creation(call, note):
    name = out_of(call, note)
    folder = os.path.dirname(name) or "."
    if os.path.isdir(name):
        why = os.strerror(errno.EISDIR)
    elif os.path.exists(name) or os.path.isdir(folder):
        why = "there is no permission to write it"
    else:
        why = "there is no such folder"
    return [f"{name}: {why}", "many writes each answer beside its query: copy the query to where you may write"]


def of_writing(call, note):
    if note["place"]:
        return [f"{out_of(call, note)} couldn't be written whole: is the disk full?"]
    return ["standard output took no more: what it goes to has ended, as head does, or is full; what stands there is a front of the answer"]


def of_width(call, note):
    task, ring = (int(call.options.get(option) or usual) for option, usual in [("--task", 1024), ("--ring", 64)])
    most_task, most_ring = (call.page.range(call.command, option)[1] for option in ("--task", "--ring"))
    if task < most_task:
        remedy = f"give --task {most_task}"
    elif ring < most_ring:
        remedy = f"give --ring {most_ring}"
    else:
        remedy = "no options take more, so its windows have to be smaller"
    return [f"the rows of a join's open windows don't fit in --task times --ring ({task} times {ring}): {remedy}"]


def of_memory(_call, _note):
    return ["the system gave no more memory: open windows, groups and rows that wait for --slack take it, so ask for fewer"]


# Each form of a note, and what is said of it.
NOTES = [
    (r"usage: ", of_words),
    (r"streams (?P<streams>\d+), files (?P<files>\d+)$", of_count),
    (r"(?P<role>query|second query) byte (?P<byte>\d+): (?P<cause>[a-z ]+)$", of_query),
    (r"(?P<role>left|right) line (?P<line>\d+): (?P<cause>[a-z0-9 ]+)$", of_row),
    (r"chain line (?P<line>\d+): (?P<cause>[a-z0-9 ]+)$", of_line_between),
    (r"(?P<role>query|second query|left|right): (open|read) fault$", of_file),
    (r"create fault$", of_creation),
    (r"write fault$", of_writing),
    (r"task \d+ needs \d+ blocks, ring has \d+$", of_width),
    (r"out of memory$", of_memory),
]


def told(call, note):
    """The lines on one line of a note."""
    head = re.match(r"saber: (?:query (?P<place>\d+): )?", note)
    for pattern, of_note in NOTES if head else []:
        found = re.match(pattern, note[head.end():])
        if found:
            return of_note(call, {"place": head["place"] or "", **found.groupdict()})
    return []


def explained(note, given, page):
    """The lines on a whole note, those that are alike once."""
    call = words.Call(page, given)
    parts = []
    for line in note.splitlines():
        part = told(call, line)
        if part not in parts:
            parts.append(part)
    return [places.plain(line) for part in parts for line in part]


def main():
    try:
        page = next(places.front(name, PAGE).decode() for name in PAGES if places.is_regular(name))
        found = explained(sys.argv[2], sys.argv[3:], words.Page(page))
        sys.stderr.write("".join(f"  {line}\n" for line in found))
    except (Exception, KeyboardInterrupt):
        if os.environ.get("SABER_HINTS") == "debug":
            raise


if __name__ == "__main__":
    main()
