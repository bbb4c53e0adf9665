"""The forms of query, each as templates of its words, and rows for them: a case is drawn from a number, and is the same again for it.

In a template `{name}` is drawn from PARTS, whose texts are templates again; `{same name}` is drawn once a query.
"""
import re
from typing import NamedTuple

PARTS = {
    "size": ["1", "2", "3", "5", "8", "17", "64"],
    "slide": ["1", "2", "3", "5", "7", "16", "64"],
    "few": ["1", "2", "3", "5", "8", "16"],
    "of": ["ROWS", "RANGE"],
    "window": ["[{same of} {size} SLIDE {slide}]"],
    "keyed": ["g, SUM(v), MIN(v), MAX(v)", "g, COUNT(*)", "g, COUNT(*), SUM(v*2-g)", "g, MIN(v)"],
    "total": ["SUM(v), MAX(v)", "COUNT(*)"],
    "where": ["", "", " WHERE v > 0", " WHERE g = 1 OR v < -10"],
    "group": ["SELECT {keyed} FROM S {window}{where} GROUP BY g", "SELECT {total} FROM S {window}{where}"],
    "partition": ["SELECT {by key} FROM S [PARTITION BY g ROWS {few} SLIDE {few}]{where}"],
    "by key": ["g, SUM(v)", "g, COUNT(*), MIN(v), MAX(v)"],
    "select": ["SELECT g, v*2-1 FROM S{where}"],
    "windowed": ["SELECT g, v FROM S {window} WHERE v > 9"],
    "matched": [" WHERE g = h", " WHERE g = h", " WHERE g = h AND v < w", " WHERE v < w - 40"],
    "join": ["SELECT v, w FROM A [{same of} {few} SLIDE {same few}], B [{same of} {few} SLIDE {same few}]{matched}"],
    "word": ["ISTREAM", "DSTREAM", "RSTREAM"],
    "one of many": ["{group}", "{group}", "{select}", "ISTREAM ({group})", "{partition}"],
    "feeding": ["SELECT g, SUM(v), MAX(v) FROM S {window} GROUP BY g"],
    "over a group": ["SELECT h, SUM(s) FROM R [RANGE 3 SLIDE 1] GROUP BY h", "SELECT h, s FROM R WHERE s > 0",
                     "ISTREAM (SELECT h, MAX(m) FROM R [RANGE 2 SLIDE 2] GROUP BY h)", "SELECT COUNT(*) FROM R [ROWS 5 SLIDE 2]"],
    "over a join": ["SELECT COUNT(*) FROM R [RANGE 2 SLIDE 1]", "SELECT x, MAX(y) FROM R [ROWS 4 SLIDE 4] GROUP BY x"],
}
ONE = "STREAM S(t,g,v); "
TWO = "STREAM A(t,g,v); STREAM B(u,h,w); "
REFUSED = ["0,x,1", "1,2", "", "-1,1,1", "99999999999999999999,1,1"]


class Form(NamedTuple):
    """A form: its command, a template a query (of `many` one for all), what is fixed in them, and what is special about its rows."""
    command: str
    queries: list
    fixed: dict = {}
    special: str = ""


FORMS = {
    "group by rows": Form("run", [ONE + "{group}"], {"of": "ROWS"}),
    "group by time": Form("run", [ONE + "{group}"], {"of": "RANGE"}),
    "by key": Form("run", [ONE + "{partition}"]),
    "selection": Form("run", [ONE + "{select}"]),
    "join by rows": Form("run", [TWO + "{join}"], {"of": "ROWS"}),
    "join by time": Form("run", [TWO + "{join}"], {"of": "RANGE"}),
    "ISTREAM": Form("run", [ONE + "ISTREAM ({group})"]),
    "DSTREAM": Form("run", [ONE + "DSTREAM ({group})"]),
    "RSTREAM": Form("run", [ONE + "RSTREAM ({group})"]),
    "word of selection": Form("run", [ONE + "{word} ({windowed})"]),
    "word of join": Form("run", [TWO + "{word} ({join})"]),
    "chain": Form("chain", [ONE + "{feeding}", "STREAM R(i,h,s,m); {over a group}"]),
    "chain of a join": Form("chain", [TWO + "{join}", "STREAM R(i,x,y); {over a join}"]),
    "many": Form("many", [ONE + "{one of many}"]),
    "demo": Form("demo", []),
    "refused line": Form("run", [ONE + "{group}"], special="refused"),
    "slack": Form("run", [ONE + "{group}"], special="late"),
    "broken pipe": Form("run", [ONE + "{one of many}"], special="cut"),
}


class Case(NamedTuple):
    """The words of a run without its sizes, its files by name, what it writes beside its output, and whether its reader goes early."""
    words: list
    files: dict
    written: list
    is_cut: bool


def fill(chance, template, same):
    """A text of a template."""
    def part(found):
        once, name = found[1], found[2]
        if once and name in same:
            return same[name]
        text = fill(chance, chance.choice(PARTS[name]), same)
        if once:
            same[name] = text
        return text
    return re.sub(r"\{(same )?([\w ]+)\}", part, template)


def lines_of(chance, count, keys, steps):
    """So many rows of a time that doesn't fall, a key and a number."""
    time, lines = 0, []
    for _ in range(count):
        time += chance.choice(steps)
        lines.append(f"{time},{chance.randrange(keys)},{chance.randint(-50, 50)}")
    return lines


def rows(chance, form):
    """The left and the right file of a form, and the slack that the left one needs."""
    keys, steps = chance.choice([1, 3, 8, 40]), chance.choice([[0, 1], [0, 0, 1, 2], [1, 5], [0, 30]])
    left = lines_of(chance, chance.choice([0, 1, 7, 40, 150, 400, 400]), keys, steps)
    right = lines_of(chance, chance.choice([0, 1, 40, 200]), keys, steps)
    slack = chance.choice([1, 7, 50]) if form.special == "late" else 0
    if slack:
        left.sort(key=lambda line: int(line.split(",")[0]) + chance.randint(0, slack))
    if left and (form.special == "refused" or chance.random() < 0.05):
        left[chance.randrange(len(left))] = chance.choice(REFUSED)
    return ["".join(f"{line}\n" for line in lines) for lines in (left, right)], slack


def draw(chance, form):
    """A case of a form."""
    if form.command == "demo":
        return Case(["demo", str(chance.randrange(1000)), str(chance.choice([1, 50, 400]))], {}, [], False)
    (left, right), slack = rows(chance, form)
    templates = form.queries * (chance.randint(1, 8) if form.command == "many" else 1)
    files = {f"q{at}": fill(chance, template, dict(form.fixed)) for at, template in enumerate(templates)}
    names, inputs = list(files), ["left", "right"][:1 + form.queries[0].startswith(TWO)]
    files.update(left=left, right=right)
    words = ["many", *inputs, *names] if form.command == "many" else [form.command, *names, *inputs]
    if form.command != "chain":
        words += chance.choice([[], ["--final"]])
    if slack:
        words += ["--slack", str(slack)]
    written = [f"{name}.out" for name in names] if form.command == "many" else []
    return Case(words, files, written, form.special == "cut")
