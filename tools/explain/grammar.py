"""The tokens and the grammar of a query, and what may stand where its text goes wrong."""
import re
import sys

# A condition of 64 parentheses inside one another takes some twenty calls for each.
sys.setrecursionlimit(5000)
# As docs/LANGUAGE.md has it: braces repeat, square brackets without quotes may be left out.
GRAMMAR = """\
Query  = Decl { Decl } ( Select | Word "(" Select ")" ) [ ";" ]
Word   = RSTREAM | ISTREAM | DSTREAM
Decl   = STREAM Name "(" Name { "," Name } ")" ";"
Select = SELECT Item { "," Item } FROM From [ "," From ] [ WHERE Pred ] [ GROUP BY Col { "," Col } ]
Item   = COUNT "(" "*" ")" | ( SUM | MIN | MAX ) "(" Expr ")" | Expr
From   = Name [ "[" ( ROWS | RANGE | Keys ROWS ) Number SLIDE Number "]" ]
Keys   = PARTITION BY Col { "," Col }
Pred   = Conj { OR Conj }
Conj   = Unit { AND Unit }
Unit   = NOT Unit | "(" Pred ")" | Expr Cmp Expr
Cmp    = "=" | "<>" | "<" | "<=" | ">" | ">="
Expr   = Prod { ( "+" | "-" ) Prod }
Prod   = Factor { "*" Factor }
Factor = Col | Number | "-" Number
Col    = Name [ "." Name ]
"""
KEYWORDS = frozenset(re.findall(r"\b[A-Z]{2,}\b", GRAMMAR))
TOKEN = re.compile(rb"[A-Za-z_][A-Za-z0-9_]*|[0-9]+|<>|<=|>=|[()\[\],;.*+\-=<>]")
BLANK = b" \t\n\r"
# Nodes of the grammar: a pair of a kind and its parts.
WORD, RULE, EACH, ANY, MAYBE, REPEAT = "word", "rule", "each", "any", "maybe", "repeat"
GROUPS = {"(": None, "[": MAYBE, "{": REPEAT}


def tokens_of(text):
    """The tokens of a text, each with the byte where it begins, up to the first byte that begins none."""
    found, at = [], 0
    while at < len(text):
        token = TOKEN.match(text, at)
        if token:
            found.append((at, token[0].decode()))
            at = token.end()
        elif text[at] in BLANK:
            at += 1
        else:
            break
    return found


def alternatives(words):
    """The node of the words up to the end or a closing bracket; takes them off the front of the list."""
    ways, parts = [], []
    while words and words[0] not in ")]}":
        word = words.pop(0)
        if word == "|":
            ways.append((EACH, parts))
            parts = []
        elif word in GROUPS:
            inner = alternatives(words)
            words.pop(0)
            parts.append((GROUPS[word], inner) if GROUPS[word] else inner)
        elif word.isupper() or word[0] == '"' or word in ("Name", "Number"):
            parts.append((WORD, word.strip('"')))
        else:
            parts.append((RULE, word))
    ways.append((EACH, parts))
    return ways[0] if len(ways) == 1 else (ANY, ways)


def rules_of(grammar):
    """The rules of a grammar by their names."""
    lines = (line.split("=", 1) for line in grammar.splitlines())
    return {name.strip(): alternatives(re.findall(r'"[^"]+"|\w+|[][(){}|]', body)) for name, body in lines}


RULES = rules_of(GRAMMAR)


def fits(word, token):
    """Whether a token is one of a word of the grammar."""
    if word == "Name":
        return (token[0].isalpha() or token[0] == "_") and token.upper() not in KEYWORDS
    if word == "Number":
        return token[0].isdigit()
    return token.upper() == word


class Reading:
    """A reading of tokens by the grammar: how far it came, and what it looked for there."""

    def __init__(self, tokens):
        self.tokens, self.furthest, self.wanted = tokens, 0, []
        end = self.read((RULE, "Query"), 0)
        if end is not None:
            self.come(end)

    def come(self, at):
        """Notes that the reading has come to a place."""
        if at > self.furthest:
            self.furthest, self.wanted = at, []

    def look(self, word, at):
        """Notes that a word is looked for at a place, and tells whether it is there."""
        self.come(at)
        if at == self.furthest and word not in self.wanted:
            self.wanted.append(word)
        return at < len(self.tokens) and fits(word, self.tokens[at])

    def read(self, node, at):
        """The place behind the node, or None. The grammar needs one token to tell its ways apart."""
        kind, rest = node
        if kind == WORD:
            return at + 1 if self.look(rest, at) else None
        if kind == RULE:
            return self.read(RULES[rest], at)
        if kind == ANY:
            return next((end for end in (self.read(way, at) for way in rest) if end is not None), None)
        if kind == MAYBE:
            end = self.read(rest, at)
            return at if end is None else end
        return self.read_each(rest, at) if kind == EACH else self.read_again(rest, at)

    def read_each(self, parts, at):
        for part in parts:
            at = self.read(part, at)
            if at is None:
                return None
        return at

    def read_again(self, part, at):
        while (end := self.read(part, at)) is not None:
            at = end
        return at


def may_stand(tokens):
    """The number of tokens before the first that the grammar doesn't allow, and the words that it allows there."""
    reading = Reading([token for _, token in tokens])
    return reading.furthest, reading.wanted
