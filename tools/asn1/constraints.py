"""The constraints that PER sees (X.691 10.3): sets of numbers, sizes and characters, computed from what was parsed. The one
range that PER makes of a set is asked for at the end, so that a further constraint narrows the set."""
from dataclasses import dataclass, field, replace

from definitions import Definitions
from notation import Refused, kind, parts, spelled
from ranges import EVERYTHING, INFINITE, NATURAL, common, ends_of, merged

LETTERS = {
    "IA5String": range(0, 128), "VisibleString": range(32, 127),
    "PrintableString": [ord(it) for it in " '()+,-./0123456789:=?ABCDEFGHIJKLMNOPQRSTUVWXYZabcdefghijklmnopqrstuvwxyz"],
    "NumericString": [ord(it) for it in " 0123456789"], "BMPString": range(0, 65536),
}
# Constraints that PER doesn't see: of tables, of contents, of inner types, of values of other types than INTEGER; and an
# exception, which is none (X.680 53).
INVISIBLE = ("simpletable", "componentrelation", "contentsconstraint", "WITH COMPONENTS", "WITH COMPONENT", "CONSTRAINED BY",
             "constrained_by", "pattern", "InnerSubtype", "ValueRange", "SingleValue", "Errors")
# Those of whose characters PER sees no constraint.
UNSIZED = ("UTCTime", "GeneralizedTime")
# How a constraint by a type may be written.
CONTAINED = ("type", "ContainedSubtype")
OF_NUMBERS = ("ValueRange", "SingleValue", "ALL-EXCEPT", "EXCEPT", "union", "intersection", *CONTAINED)
# Numbers that the codec has, how many values a constraint may leave, and the sizes that lists have.
MOST, LEAST, MOST_VALUES, MOST_SIZE = 2**127 - 1, -(2**127), 2**127 - 1, 2**64 - 1


@dataclass(frozen=True)
class Limits:
    """The constraints of a value, of a size, and the permitted characters; each None where there is none."""
    value: tuple = None     # the least, the most (None for MIN and MAX), and whether there is a marker
    size: tuple = None      # the same
    alphabet: tuple = None  # code points in ascending order
    numbers: tuple = field(default=None, compare=False)     # the ranges that are left of the value
    sizes: tuple = field(default=None, compare=False)       # the same of the size

    def __bool__(self):
        return self != Limits()

    def hold(self, value):
        """Returns whether they allow a number, octets, code points or elements."""
        if self.value and not allowed(self.value, value) or self.size and not allowed(self.size, len(value)):
            return False
        return self.alphabet is None or set(value) <= set(self.alphabet)


# The bounds of a Limits, and the set behind them.
SETS = {"value": "numbers", "size": "sizes"}


@dataclass(frozen=True)
class Where:
    """Where a constraint stands: the module, what is given there for parameters, and the kind of the type that it is put on,
    with its named numbers."""
    module: str
    given: dict
    of: str
    names: dict


def allowed(bounds, number):
    """Returns whether bounds allow a number; those with a marker allow any."""
    low, high, marked = bounds
    return marked or (low is None or low <= number) and (high is None or number <= high)


def is_marked(element_set):
    """Returns whether an element set has an extension marker."""
    return kind(element_set) == "element_set" and parts(element_set)[1] != "none"


class Constraints(Definitions):
    """Constraints of types."""

    def number_set(self, node, where):
        """Returns the ranges of numbers of an element set (X.680 50), or None where PER sees none."""
        head = kind(node)
        if head == "element_set":
            return self.number_set(parts(node)[0], where)
        if head == "ValueRange":
            low, high = parts(node)[0]["t"]
            return [(self.end(low, where, -INFINITE), self.end(high, where, INFINITE))]
        if head == "SingleValue":
            found = parts(node)[0]
            values = [self.number(it, where.given, where.names) for it in (found if isinstance(found, list) else [found])]
            return merged([(it, it) for it in values])
        if head in CONTAINED:
            return self.numbers_of_type(node if head == "type" else parts(node)[0], where)
        return self.combined(node, head, lambda it: self.number_set(it, where))

    def end(self, node, where, open_end):
        """Returns an end of a range: a number, one that isn't in it (X.680 51.4), or none."""
        if kind(node) in ("lt", "gt") and parts(node):
            found = self.end(parts(node)[0], where, open_end)
            return found - 1 if kind(node) == "lt" else found + 1
        found = self.number(node, where.given, where.names)
        return open_end if found is None else found

    def numbers_of_type(self, node, where):
        """Returns the ranges of the numbers of a type or a value set, less those of its extension (X.680 51.3)."""
        reference = node["def"]
        if kind(reference) == "Externaltypereference" and reference["type"] in where.given:
            actual, module, given = where.given[reference["type"]]
            if kind(actual) == "valueset":
                return self.number_set(parts(actual)[0], replace(where, module=module, given=given))
        limits = self.type(node, where.module, where.given).type.limits
        return [*limits.numbers] if limits.value else None

    def letter_set(self, node, letters, where):
        """Returns the ranges of code points of an element set."""
        head = kind(node)
        if head == "element_set":
            return self.letter_set(parts(node)[0], letters, where)
        if head == "ValueRange":
            low, high = parts(node)[0]["t"]
            return [(self.letter(low, min(letters), where), self.letter(high, max(letters), where))]
        if head == "SingleValue":
            return merged([(it, it) for it in self.text(parts(node)[0], where.given)])
        if head in CONTAINED:
            alphabet = self.type(node if head == "type" else parts(node)[0], where.module, where.given).type.limits.alphabet
            return merged([(it, it) for it in (letters if alphabet is None else alphabet)])
        return self.combined(node, head, lambda it: self.letter_set(it, letters, where))

    def letter(self, node, open_end, where):
        """Returns the code point at an end of a range."""
        if node in ("MIN", "MAX"):
            return open_end
        if kind(node) in ("lt", "gt") and parts(node):
            return self.letter(parts(node)[0], open_end, where) + (-1 if kind(node) == "lt" else 1)
        return self.text(node, where.given)[0]

    @staticmethod
    def combined(node, head, read):
        """Returns the ranges of several sets taken together, each read by `read`, which says None where PER sees none. EXCEPT
        and what follows it count for nothing (X.691 10.3)."""
        if head == "ALL-EXCEPT":
            return EVERYTHING
        if head == "EXCEPT":
            return read(parts(node)[0])
        if head not in ("union", "intersection"):
            raise Refused(f"{spelled(node)} has no place in this constraint")
        some, others = map(read, parts(node)[:2])
        if head == "union":
            return None if some is None or others is None else merged([*some, *others])
        if some is None or others is None:
            return others if some is None else some
        return common(some, others)

    def dimensions(self, node, where):
        """Returns what a constraint says, by 'value', 'size' and 'alphabet': ranges, and whether there is a marker."""
        head, of = kind(node), where.of
        if head == "element_set":
            found = self.dimensions(parts(node)[0], where)
            if is_marked(node):     # an alphabet with a marker isn't visible (X.691 10.3.12)
                found.pop("alphabet", None)
            return {name: (ranges, marked or is_marked(node)) for name, (ranges, marked) in found.items()}
        if head == "SizeConstraint" and of in UNSIZED:
            return {}
        if head == "SizeConstraint":
            inner = parts(node)[0]
            return {"size": (common(self.sizes(inner, where), NATURAL), is_marked(inner))}
        if head == "PermittedAlphabet":
            return self.alphabet(parts(node)[0], where)
        if of == "INTEGER" and head in OF_NUMBERS:
            ranges = self.number_set(node, where)
            return {} if ranges is None else {"value": (ranges, False)}
        if head in ("union", "intersection"):
            return self.both(head, *(self.dimensions(it, where) for it in parts(node)[:2]))
        if head == "EXCEPT":
            return self.dimensions(parts(node)[0], where)
        if head in CONTAINED:
            return self.contained(self.type(node if head == "type" else parts(node)[0], where.module, where.given).type.limits)
        if head in (*INVISIBLE, "ALL-EXCEPT"):
            return {}
        raise Refused(f"{spelled(node)} in a constraint of {of} isn't taken")

    def sizes(self, inner, where):
        """Returns the ranges of a SIZE; a name there is one of a value, not of a named number or bit."""
        found = self.number_set(inner, replace(where, names={}))
        return EVERYTHING if found is None else found

    def alphabet(self, inner, where):
        # An alphabet with a marker isn't visible (X.691 10.3.12), nor is one of a type whose characters vary in length.
        if where.of not in LETTERS or is_marked(inner):
            return {}
        return {"alphabet": (self.letter_set(inner, LETTERS[where.of], where), False)}

    @staticmethod
    def contained(limits):
        """Returns what the constraint says that a value is one of a type: its marker doesn't count (X.680 51.3)."""
        found = {"size": ([*limits.sizes], False)} if limits.size else {}
        if limits.alphabet is not None:
            found["alphabet"] = merged([(it, it) for it in limits.alphabet]), False
        return found

    @staticmethod
    def both(head, some, others):
        """Returns what two say together: of a union what both speak of, and of an intersection what either does."""
        join = (lambda a, b: merged([*a, *b])) if head == "union" else common
        found = {it: (join(some[it][0], others[it][0]), some[it][1] or others[it][1]) for it in some if it in others}
        return found if head == "union" else {**some, **others, **found}

    def limited(self, limits, constraints, module, given, of, names=None):
        """Returns the constraints of a parent type with those that are put behind it, one after another (X.680 50.8)."""
        where = Where(module, given, of, names or {})
        for node in constraints:
            found = self.dimensions(node, where)
            for name in SETS:
                if name in found:
                    limits = self.narrowed(limits, name, *found[name])
            if "alphabet" in found:
                limits = replace(limits, alphabet=self.letters(limits.alphabet or LETTERS[of], found["alphabet"][0]))
        return limits

    @staticmethod
    def letters(before, ranges):
        """Returns the characters of an alphabet that are in ranges."""
        found = common(merged([(it, it) for it in before]), ranges)
        if not found:
            raise Refused("no character meets the constraints")
        return tuple(it for low, high in found for it in range(low, high + 1))

    @staticmethod
    def narrowed(limits, name, ranges, marked):
        """Returns limits under one more constraint of the value or the size."""
        before = getattr(limits, SETS[name])
        ranges = common(before or EVERYTHING, ranges)
        if not ranges:
            raise Refused("no value meets the constraints")
        low, high = ends_of(ranges)
        if (low, high) == (0 if name == "size" else None, None):
            if marked:
                raise Refused("a marker behind a constraint that allows any value isn't taken")
            return replace(limits, **{name: None, SETS[name]: None})
        expect_held(name, low, high)
        return replace(limits, **{name: (low, high, marked), SETS[name]: tuple(ranges)})


def expect_held(name, low, high):
    """Refuses bounds past the numbers that the codec has."""
    least, most = (0, MOST_SIZE) if name == "size" else (LEAST, MOST)
    if any(it is not None and not least <= it <= most for it in (low, high)):
        raise Refused(f"a {name} past {'64 bits' if name == 'size' else '128 bits with a sign'} isn't taken")
    if None not in (low, high) and high - low >= MOST_VALUES:
        raise Refused("a constraint that allows more values than 127 bits tell apart isn't taken")
