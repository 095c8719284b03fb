"""What asn1ct's reading of a type's constraints comes to (X.691 10.3), by rules of its own: nothing is shared with
constraints.py, which it judges. A set is what holds of a number and the numbers at which that may change."""
from dataclasses import dataclass
from typing import Callable

from notation import kind, parts

INFINITE = float("inf")
# The characters of a type: its first and last, and those alone that it has.
CHARACTERS = {
    "IA5String": (0, 127, None), "VisibleString": (32, 126, None), "BMPString": (0, 65535, None),
    "NumericString": (32, 57, set(b" 0123456789")),
    "PrintableString": (32, 122, set(b" '()+,-./:=?0123456789ABCDEFGHIJKLMNOPQRSTUVWXYZabcdefghijklmnopqrstuvwxyz")),
}
ONE_RANGE = ("range", "a_range")
WITHIN = {"SizeConstraint": "size", "PermittedAlphabet": "alphabet"}


@dataclass(frozen=True)
class Allowed:
    """A set of numbers: its points are where it may begin or end."""
    points: frozenset
    holds: Callable

    def ends(self):
        """Returns the least and the most number that it holds of, or None where it holds of none."""
        found = [it for it in self.points if self.holds(it)]
        return (min(found), max(found)) if found else None


ANY = Allowed(frozenset({-INFINITE, INFINITE}), lambda number: True)


def between(low, high):
    return Allowed(frozenset({low, high}), lambda number: low <= number <= high)


def either(some, others):
    return Allowed(some.points | others.points, lambda number: some.holds(number) or others.holds(number))


def both(some, others):
    return Allowed(some.points | others.points, lambda number: some.holds(number) and others.holds(number))


def number_of(node):
    """Returns a number that stands at an end: a character's is its code."""
    if node in ("MIN", "MAX"):
        return -INFINITE if node == "MIN" else INFINITE
    return node[0] if isinstance(node, list) else node


def is_extended(node):
    """Returns whether a constraint of asn1ct's is a root and, behind a marker, what it leaves out."""
    return isinstance(node, dict) and "t" in node and len(node["t"]) == 2 and isinstance(node["t"][0], dict)


class Reading:
    """The constraints of types as asn1ct checked them. `followed` returns a type behind its references, and the constraints on
    the way, the nearest first."""

    def __init__(self, followed):
        self.followed = followed

    def of(self, constraints, of):
        """Returns what constraints come to, the last put on first: value, size and alphabet."""
        value = self.bounds(constraints, "value") if of == "INTEGER" else None
        return value, self.bounds(constraints, "size"), self.alphabet(constraints, of) if of in CHARACTERS else None

    def bounds(self, constraints, which):
        """Returns the least, the most and whether there is a marker, which the constraint says that was put on last (X.680
        50.8); None where there are none."""
        found, marked = (between(0, INFINITE) if which == "size" else ANY), None
        for node in constraints:
            one, is_marked = self.read(node, which)
            if one is not None:
                found, marked = both(found, one), is_marked if marked is None else marked
        ends = found.ends()
        if ends is None:
            return "nothing"
        low, high = (None if abs(it) == INFINITE else it for it in ends)
        is_any = high is None and (low is None or which == "size" and low == 0)
        return None if is_any and not marked else (low, high, bool(marked))

    def alphabet(self, constraints, of):
        """Returns the permitted characters, or None where no constraint is visible."""
        first, last, only = CHARACTERS[of]
        read = [self.read(node, "alphabet") for node in constraints]
        seen = [one for one, is_marked in read if one is not None and not is_marked]
        if not seen:
            return None
        every = (code for code in range(first, last + 1) if only is None or code in only)
        return tuple(code for code in every if all(one.holds(code) for one in seen))

    def read(self, node, which):
        """Returns what a constraint says of a dimension, or None, and whether there is a marker."""
        if is_extended(node):
            return self.read(node["t"][0], which)[0], True
        head = kind(node)
        if head == "element_set":
            found, marked = self.read(parts(node)[0], which)
            return found, marked or parts(node)[1] != "none"
        if head in WITHIN:
            return self.numbers(parts(node)[0]) if WITHIN[head] == which else (None, False)
        if head in ("union", "intersection"):
            return self.joined(node, which, self.read)
        if head == "EXCEPT":
            return self.read(parts(node)[0], which)
        if head == "ContainedSubtype":
            return self.contained(parts(node)[0], which), False
        return self.numbers(node) if which == "value" else (None, False)

    def joined(self, node, which, read):
        """Returns what a union or an intersection says: of what PER doesn't see, a union nothing (X.691 10.3)."""
        (some, one), (others, other) = (read(it, which) for it in parts(node)[:2])
        if kind(node) == "union":
            return (None if some is None or others is None else either(some, others)), one or other
        if some is None or others is None:
            return (others, other) if some is None else (some, one)
        return both(some, others), one or other

    def contained(self, node, which):
        """Returns what a type says that values are to be of, less its marker (X.680 51.3)."""
        found = ANY
        for one in (self.read(it, which)[0] for it in self.followed(node)[1]):
            found = found if one is None else both(found, one)
        return None if found is ANY else found

    def numbers(self, node, _=None):
        """Returns a set of numbers, or None where it says nothing of them, and whether there is a marker."""
        if isinstance(node, int):
            return between(node, node), False
        if is_extended(node):
            return self.numbers(node["t"][0])[0], True
        head = kind(node)
        if head in ("set", "ranges"):
            found = None
            for one in map(self.one_range, parts(node)[0]):
                found = one if found is None else either(found, one)
            return found, False
        if head == "element_set":
            found, marked = self.numbers(parts(node)[0])
            return found, marked or parts(node)[1] != "none"
        if head == "ValueRange":
            return between(*map(number_of, node["t"][1]["t"])), False
        if head == "SingleValue":
            values = parts(node)[0] if isinstance(parts(node)[0], list) else parts(node)
            return Allowed(frozenset(values), lambda number: number in values), False
        if head in ("union", "intersection"):
            return self.joined(node, None, self.numbers)
        if head == "EXCEPT":
            return self.numbers(parts(node)[0])
        if head == "ContainedSubtype":
            return self.contained(parts(node)[0], "value"), False
        return (ANY if head == "ALL-EXCEPT" else None), False

    @staticmethod
    def one_range(node):
        low, high = parts(node) if kind(node) == "range" else (-INFINITE, parts(node)[0])
        return between(number_of(low), number_of(high))
