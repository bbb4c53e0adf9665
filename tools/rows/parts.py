"""The fields of an answer's line: what each is called, and what its number stands for."""
from dataclasses import dataclass, replace

import expressions
import kinds
from faults import FIELDS, Fault


@dataclass
class Part:
    """What is shown of an answer's line: the number at a place; or a mean, of the numbers at two places.

    `called` is the aggregate, where it is one's.
    """

    name: str
    kind: kinds.Kind
    place: int = 0
    called: str = ""
    mean: tuple = ()


def of_window(window, kind):
    """The first field of an answer over windows: the beginning of the window by time, else its number."""
    if window[0] != "RANGE":
        return Part("window", kinds.INT)
    slide = int(window[window.index("SLIDE") + 1])
    return Part("from", replace(kind, each=kind.each * slide))


def of_item(item, look):
    """The field of an item of SELECT, where `look` gives the kind of a column."""
    if item == ["COUNT", "(", "*", ")"]:
        return Part("count", kinds.INT, called="COUNT")
    called = item[0] if item[1:2] == ["("] else ""
    inside = item[2:-1] if called else item
    kind = kinds.of_tree(expressions.parse(" ".join(inside)), look)
    if called == "SUM" and kind.name != "scale":
        kind = kinds.INT
    text = " ".join(inside).replace(" . ", ".")
    if called:
        text = f"{called.lower()}({text})" if " " in text else f"{called.lower()}_{text}"
    return Part(text, kind, called=called)


def of_query(query, kinds_of):
    """The fields of a query's answer, where `kinds_of` gives the kinds of a stream's columns by its place in FROM."""
    known, first = {}, None
    for place, stream in enumerate(query.sources):
        given = kinds_of(place, len(query.columns[stream]))
        first = first or given[0]
        for column, kind in zip(query.columns[stream], given):
            known.setdefault(column, kind)
            known[f"{stream}.{column}"] = kind
    found = [of_window(query.window, first)] if query.window else []
    found += [of_item(item, known.__getitem__) for item in query.items]
    return [replace(part, place=place) for place, part in enumerate(found)]


def over_fields(query, left, right):
    """The kinds of the columns of the streams: those of FIELDS, in their order."""
    def kinds_of(place, declared):
        fields = right if place and right else left
        if len(fields.columns) != declared:
            raise Fault(FIELDS, f"{query.name} declares {declared} columns, {fields.path} has {len(fields.columns)}")
        return [column.kind for column in fields.columns]
    return kinds_of


def over_answers(query, before):
    """The kinds of the columns of a stream of another query's answers, with the window's number or without it."""
    def kinds_of(_, declared):
        given = [part.kind for part in before]
        if declared not in (len(given), len(given) - 1):
            raise Fault(FIELDS, f"{query.name} declares {declared} columns, what it is asked of has {len(given)}")
        return given[len(given) - declared:]
    return kinds_of


def with_means(found):
    """The fields, and a mean behind each SUM and COUNT(*) that stand side by side."""
    made = []
    for place, part in enumerate(found):
        made.append(part)
        for total, count in ((place - 1, place), (place, place - 1)):
            if place and found[total].called == "SUM" and found[count].called == "COUNT":
                name = "mean" + found[total].name.removeprefix("sum")
                made.append(Part(name, found[total].kind, mean=(total, count)))
    return made


def named_apart(found):
    """The fields, each with a name of its own."""
    taken, made = set(), []
    for part in found:
        name, number = part.name, 1
        while name in taken:
            number += 1
            name = f"{part.name}_{number}"
        taken.add(name)
        made.append(replace(part, name=name))
    return made
