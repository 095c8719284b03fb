"""Values of types as the compiler's resolver knows them: the least, the most, and some between.

A value is None for NULL, a truth, a number, the name of an item, octets or the value that they contain, a text of the
bits 0 and 1, a text, the numbers of an OBJECT IDENTIFIER, a list, the name of an alternative and its value, or the
components that are there by their names. A group of additions stands under its name among them.
"""
import random
from dataclasses import dataclass

from constraints import LETTERS
from literals import AS_OCTETS
from resolve import TEXTS

LEAST, MOST, ANY = "least", "most", "any"
# How far a number without a bound goes from its other bound.
FAR = 70000
# Sizes where the form of a length changes (X.691 11.9): one octet, two, and fragments.
SIZES = (0, 1, 6, 127, 128, 300)
FRAGMENT = 16384
# Parts of a value, past which it is kept small.
ROOM = 120
# OBJECT IDENTIFIERs, the last with numbers that take several octets (X.690 8.19), as far as the library takes them.
IDENTIFIERS = ((0, 0), (1, 3, 6), (2, 999, 128, 2**32 - 1))
TIMES = {"UTCTime": "700101000000Z", "GeneralizedTime": "19700101000000Z"}


@dataclass(frozen=True)
class Held:
    """A value that an open type holds, as an object set says."""
    use: object
    value: object


class Chooser:
    """Chooses values of one manner. Identifiers that an object set knows are kept out of a record with an open type, so
    that any octets may stand there."""

    def __init__(self, manner, seed, identifiers=frozenset()):
        self.manner, self.random, self.room, self.identifiers = manner, random.Random(seed), ROOM, identifiers

    def one(self, least, most, others):
        """Returns the least, the most, or any of these and others."""
        if self.manner == ANY:
            return self.random.choice([least, most, *others()])
        return least if self.manner == LEAST else most

    def number(self, of, without=frozenset()):
        low, high, is_marked = of.limits.value or (None, None, False)
        least = low if low is not None else (high or 0) - FAR
        most = high if high is not None else (low or 0) + FAR
        least = next(it for it in range(least, most + 1) if it not in without)
        most = next(it for it in range(most, least - 1, -1) if it not in without)

        def others():
            found = [least + (most - least) // 2, self.random.randint(least, most)]
            found += [it for it in of.names.values() if least <= it <= most]
            if is_marked:
                found += [least - 1, most + 1, most + FAR]
            return [it for it in found if it not in without]

        return self.one(least, most, others)

    def size(self, of, few):
        """Returns a size; `few` is how many a size without a bound has at most where it isn't a string at the top."""
        low, high, is_marked = of.limits.size or (0, None, False)
        top = low + few if high is None else min(high, low + 3 * few)
        if self.room <= 0:
            return low

        def others():
            found = [it for it in (low + 1, low + few) if high is None or it <= high]
            if few > 2 and self.room == ROOM - 1:
                found += [it for it in SIZES if low <= it and (high is None or it <= high)]
                found += [FRAGMENT + 3] * (high is None)
            return found + ([high + 1] if is_marked and high is not None and high < 300 else [])

        return self.one(low, top, others)

    def value(self, use):
        """Returns a value of a type where it is used."""
        of = use.type
        self.room -= 1
        if of.kind in CHOSEN:
            return getattr(self, CHOSEN[of.kind])(of)
        letters = [ord(it) for it in "aZ9"] if of.kind in AS_OCTETS else of.limits.alphabet or LETTERS[of.kind]
        return "".join(chr(self.random.choice(letters)) for _ in range(self.size(of, 6)))

    def truth(self, _):
        return self.one(False, True, lambda: [])

    @staticmethod
    def nothing(_):
        """Returns the value of a NULL."""

    @staticmethod
    def time(of):
        return TIMES[of.kind]

    def identifier(self, _):
        return self.one(IDENTIFIERS[0], IDENTIFIERS[-1], lambda: IDENTIFIERS)

    def octets(self, of):
        if of.contained:
            return self.value(of.contained)
        return bytes(self.random.randrange(256) for _ in range(self.size(of, 6)))

    def open_octets(self, of):
        return bytes(self.random.randrange(256) for _ in range(self.random.choice((1, 2, 5, 130))))

    def bits(self, of):
        """Returns bits; of those that have names those that PER writes, with no more zero bits at the end than the size asks
        for (X.691 16.2)."""
        found = "".join(self.random.choice("01") for _ in range(self.size(of, 9)))
        if of.held_kind == "NAMED BITS":
            found = found.rstrip("0").ljust(of.limits.size[0] if of.limits.size else 0, "0")
        return found

    def item(self, of):
        every = [*of.items, *(of.added_items or [])]
        return self.one(of.items[0], every[-1], lambda: every)

    def list(self, of):
        return [self.value(of.element) for _ in range(self.size(of, 2))]

    def alternative(self, of):
        every = of.all_parts
        part = self.one(every[0], every[-1], lambda: every)
        return part.name, self.value(part.use)

    def record(self, of):
        is_open = any(part.use.type.kind == "OPEN" for part in of.parts)
        found = {}
        for part in of.parts:
            if is_open and part.use.type.kind == "INTEGER":
                found[part.name] = self.number(part.use.type, self.taken(of))
            elif part.presence == "required" or self.is_there():
                found[part.name] = self.value(part.use)
            elif part.presence == "default":
                found[part.name] = default_of(part)
        for part in of.added or []:
            if part.presence == "required" and part.group is None or self.is_there():
                held = self.value(part.use)
                if not is_left_out(part, held):
                    found[part.name] = held
        return found

    def taken(self, _):
        """Returns the identifiers that an object set knows of a record's open type."""
        return self.identifiers

    def is_there(self):
        """Tells whether a part is there that may be absent."""
        return self.one(False, True, lambda: [self.room > 0])


def is_left_out(part, value):
    """Tells whether an addition is left out: at its default, which asn1ct writes nevertheless, or a group of which no
    component is there (X.691 19.9)."""
    if part.group is None:
        return part.presence == "default" and value == default_of(part)
    return all(it.name not in value or it.presence == "default" and value[it.name] == default_of(it) for it in part.group)


def default_of(part):
    """Returns a default as a value: of a text the resolver has its code points."""
    return "".join(map(chr, part.default)) if part.use.type.kind in TEXTS else part.default


# The method that chooses a value of a kind.
CHOSEN = {
    "BOOLEAN": "truth", "NULL": "nothing", "INTEGER": "number", "ENUMERATED": "item", "OCTET STRING": "octets",
    "OPEN": "open_octets", "BIT STRING": "bits", "OBJECT IDENTIFIER": "identifier", "SEQUENCE OF": "list",
    "SET OF": "list", "CHOICE": "alternative", "SEQUENCE": "record", "SET": "record", **dict.fromkeys(TIMES, "time"),
}
