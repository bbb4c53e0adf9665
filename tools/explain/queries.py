"""What is said of a query that was refused: where the fault stands, and one sentence that fits it."""
import re
import grammar
import places
import slips

# A query has at most so many bytes; more of its file isn't read.
LIMIT = 65536
# Patterns are looked for among so many tokens before and behind the byte, of each so many letters.
BEFORE, BEHIND, LETTERS = 400, 60, 100
# A word in capitals of a pattern, but for one that goes on.
WORD = re.compile(r"(?<![\\\w])((?:\[RID\])?[A-Z][A-Z_]+)(?!\\w|\w)")


class Query:
    """A query's text with a byte of it."""

    def __init__(self, text, byte=0):
        self.text, self.byte = text, byte
        self.tokens = grammar.tokens_of(text)
        self.words = [token for _, token in self.tokens]
        self.place = sum(at < byte for at, _ in self.tokens)

    def marked(self):
        """The tokens before the byte, an `@`, and those from there on; where none begins there, the text as it stands."""
        before = self.words[max(0, self.place - BEFORE):self.place]
        behind = self.words[self.place:self.place + BEHIND] or [self.text[self.byte:self.byte + LETTERS].decode("utf-8", "replace")]
        return " ".join(word[:LETTERS] for word in [*before, "@", *behind])

    def at(self):
        """What begins at the byte."""
        return self.words[self.place] if self.place < len(self.words) else "the end of the text"

    def declared(self):
        """The columns of each stream that is declared."""
        found = re.findall(r"\bSTREAM (\w+) \(([\w ,]*)\)", " ".join(self.words), re.I)
        return {name: columns.replace(",", " ").split() for name, columns in found}

    def sources(self):
        """The names of the streams of FROM."""
        found = re.search(r"\bFROM (\w+)(?: \[[^]]*\])?(?: , (\w+))?", " ".join(self.words), re.I)
        return [name for name in found.groups() if name] if found else []

    def items(self):
        """The items of SELECT, each as its tokens."""
        found = re.search(r"\bSELECT (.*?) FROM\b", " ".join(self.words), re.I)
        return found[1].split(" , ") if found else []


def undeclared(query):
    """Which columns there are, where one isn't."""
    declared, sources = query.declared(), query.sources()
    for name in sources:
        if name not in declared:
            return f"FROM names {name}, which no STREAM declares ({streams_told(query)})"
    owner = query.words[query.place - 2:query.place]
    if owner[1:] == ["."]:
        sources = owner[:1]
    told = "; ".join(f"{name} has {', '.join(declared.get(name, []))}" for name in sources)
    return f"{query.at()} is no column here, as it is written: {told}"


def streams_told(query):
    return "declared: " + ", ".join(query.declared())


def lies(query):
    """In how many windows a row would lie, by the size at the byte and the slide behind it."""
    size, _, slide = query.words[query.place:query.place + 3]
    return -(-int(size) // int(slide))


def stands(query):
    """What the grammar has at the byte in place of what is there."""
    place, wanted = grammar.may_stand(query.tokens[:query.place + 1])
    if place != query.place:
        return slips.PLAIN["syntax"]
    if not wanted:
        return f"{query.at()} stands behind the end of the query"
    *first, last = [{"Name": "a name", "Number": "a number"}.get(word, word) for word in wanted]
    return f"{query.at()} stands where the grammar has {'  '.join([*first, 'or ' * bool(first) + last])}"


def values(query, usage):
    """What a sentence may name."""
    one, two = [*query.sources(), "", ""][:2]
    behind = ["", "", *query.words[:query.place]]
    return {
        "at": query.at(), "before": behind[-1], "owner": behind[-2], "usage": usage,
        "from_one": one, "from_two": two, "declared": streams_told(query),
    }


# What is worked out only for the sentence that names it.
WORKED = {"undeclared": undeclared, "lies": lies}


def read(pattern):
    """A pattern of the tables as a regular expression."""
    pattern = WORD.sub(r"\\b\1\\b", pattern)
    return pattern.replace("{keyword}", rf"(?:{'|'.join(sorted(grammar.KEYWORDS))})\b")


def sentence(query, cause, usage):
    """The sentence of the first pattern of the cause's table that is found."""
    marked = query.marked()
    for pattern, told in slips.TABLES.get(cause, []):
        found = re.search(read(pattern), marked, re.I | re.S)
        if found:
            worked = {name: work(query) for name, work in WORKED.items() if f"{{{name}}}" in told}
            named = {name: word.replace(" . ", ".") for name, word in found.groupdict("").items()}
            return told.format_map({**values(query, usage), **worked, **named})
    return stands(query) if cause == "syntax" else slips.PLAIN[cause]


def told(name, byte, cause, whole, usage):
    """The lines on a query: its file, and the byte and cause of the note; `whole` is the sentence where the query as a whole is wrong."""
    text = places.front(name, LIMIT + 1)
    if cause == "shape" and byte == 0:
        return [f"{name}:", whole or slips.PLAIN[cause]]
    if text is None:
        return [f"{name} can't be read again, so byte {byte} isn't shown", slips.PLAIN.get(cause, cause)]
    return [*places.shown(name, text, byte), sentence(Query(text, byte), cause, usage)]
