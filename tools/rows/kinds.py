"""What the whole numbers of a column stand for: times, texts, decimals, or themselves."""
from dataclasses import dataclass, replace
from typing import Any

DIGITS = {"s": 0, "ms": 3, "us": 6, "ns": 9}


@dataclass(frozen=True)
class Kind:
    """`int`, `text`, `scale` with its digits, or `time` with its unit.

    `zone` is that of times without an offset, `texts` the file of texts, `empty` what stands for an empty cell. A
    number stands for `each` times itself, such as that of a window for its beginning.
    """

    name: str
    digits: int = 0
    unit: str = ""
    zone: Any = None
    texts: Any = None
    empty: Any = None
    each: int = 1


INT = Kind("int")


def of_sum(sign, left, right, literal):
    """The kind of a sum or a difference; `literal` tells of each side whether it is a number as written."""
    if "time" in (left.name, right.name):
        other = right if left.name == "time" else left
        fits = other.name == "int" and (sign == "+" or left.name == "time")
        return (left if left.name == "time" else right) if fits else INT
    if left.name == right.name == "scale" and left.digits == right.digits:
        return left
    if left.name == "scale" and literal[1]:
        return left
    return right if right.name == "scale" and literal[0] else INT


def of_product(left, right):
    """The kind of a product: the digits behind the point add up."""
    if not {left.name, right.name} <= {"int", "scale"} or left.name == right.name == "int":
        return INT
    return Kind("scale", left.digits + right.digits)


def of_tree(tree, look):
    """The kind of an expression, where `look` gives that of a name."""
    if tree[0] == "name":
        return replace(look(tree[1]), empty=None)
    if tree[0] == "negative":
        found = of_tree(tree[1], look)
        return found if found.name == "scale" else INT
    if tree[0] in ("+", "-"):
        sides = [of_tree(side, look) for side in tree[1:]]
        return of_sum(tree[0], *sides, [side[0] == "number" for side in tree[1:]])
    if tree[0] == "*":
        return of_product(of_tree(tree[1], look), of_tree(tree[2], look))
    return INT
