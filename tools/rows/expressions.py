"""Expressions over columns: `price * size`, `status >= 500`, `method = "GET" AND NOT cached = 1`.

A tree is a tuple: ("number", 5), ("text", "GET"), ("name", "status"), ("negative", tree), ("NOT", tree), or an
operator with its two sides, as ("+", tree, tree).
"""
import re

from faults import Wrong

TOKEN = re.compile(
    r'\s*(?:(\d+)|([A-Za-z_]\w*(?:\s*\.\s*[A-Za-z_]\w*)?)|"((?:[^"]|"")*)"|(<>|<=|>=|!=|==|[-+*=<>()]))', re.ASCII)
LEVELS = [["OR"], ["AND"], ["=", "<>", "<", "<=", ">", ">="], ["+", "-"], ["*"]]
NOT_LEVEL, COMPARED, FACTOR = 2, 2, len(LEVELS)
SAME = {"==": "=", "!=": "<>"}
MOST_WORDS, MOST_NESTED, MOST_NUMBER = 200, 50, 2**63


def words(text):
    """The words of an expression: pairs of a kind (number, name, text, sign) and what stands there."""
    found, at, text = [], 0, text.rstrip()
    while at < len(text):
        match = TOKEN.match(text, at)
        if not match:
            raise Wrong(f"not understood at {text[at:].strip()[:20]!r}")
        number, name, quoted, sign = match.groups()
        if number:
            found.append(("number", int(number[:30])))
        elif name and name.upper() in ("AND", "OR", "NOT"):
            found.append(("sign", name.upper()))
        elif name:
            found.append(("name", re.sub(r"\s", "", name)))
        elif sign:
            found.append(("sign", SAME.get(sign, sign)))
        else:
            found.append(("text", quoted.replace('""', '"')))
        at = match.end()
    if len(found) > MOST_WORDS:
        raise Wrong(f"an expression has at most {MOST_WORDS} words")
    return found


class Parser:
    """Reads the words of one expression."""

    def __init__(self, found):
        self.words, self.at, self.nested = found, 0, 0

    def sign(self, signs):
        """Takes the next word if it is one of these signs."""
        if self.at < len(self.words) and self.words[self.at][0] == "sign" and self.words[self.at][1] in signs:
            self.at += 1
            return self.words[self.at - 1][1]
        return None

    def tree(self, level=0):
        """An expression of operators from this level on, those of a level from left to right."""
        if level == FACTOR:
            return self.factor()
        if level == NOT_LEVEL and self.sign(["NOT"]):
            return ("NOT", self.deeper(level))
        found = self.tree(level + 1)
        while operator := self.sign(LEVELS[level]):
            found = (operator, found, self.tree(level + 1))
            if level == COMPARED:
                break
        return found

    def factor(self):
        """A number, a text, a name, a factor with `-` before it, or an expression in parentheses."""
        if self.sign(["-"]):
            return ("negative", self.deeper(FACTOR))
        if self.sign(["("]):
            found = self.deeper(0)
            if not self.sign([")"]):
                raise Wrong("a `)` is missing")
            return found
        if self.at == len(self.words) or self.words[self.at][0] == "sign":
            raise Wrong("a column or a number is missing")
        self.at += 1
        found = self.words[self.at - 1]
        if found[0] == "number" and found[1] > MOST_NUMBER:
            raise Wrong("a number is at most 2^63")
        return found

    def deeper(self, level):
        """A tree within another, at most so deep."""
        self.nested += 1
        if self.nested > MOST_NESTED:
            raise Wrong(f"more than {MOST_NESTED} parentheses and signs")
        found = self.tree(level)
        self.nested -= 1
        return found


def parse(text):
    """The tree of an expression."""
    parser = Parser(words(text))
    found = parser.tree()
    if parser.at < len(parser.words):
        raise Wrong(f"not understood at {str(parser.words[parser.at][1])!r}")
    return found


def names(tree):
    """The names that stand in a tree, from left to right."""
    if tree[0] == "name":
        return [tree[1]]
    return [name for part in tree[1:] if isinstance(part, tuple) for name in names(part)]
