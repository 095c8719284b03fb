"""Modules at random: types of all kinds that the compiler takes, each module in two spellings. One is written as people write;
in the other, for asn1ct, stand the constraints that PER sees of these, and the alternatives in the order of their tags, in a
module with automatic tags: what asn1ct makes of more stands in explained.tsv for other protocols."""
import random

from sets import LETTERS, Sets, Spelled

STRINGS = (*LETTERS, "UTF8String")


def both(text):
    return Spelled(text, text)


def joined(pieces, between, around="{}"):
    """Returns texts of both spellings in a row."""
    return Spelled(*(around.format(between.join(it)) for it in zip(*((one.written, one.seen) for one in pieces)))) if pieces else both(around.format(""))


class Module:
    """A module of types, by a number. Those with an odd one have written tags."""

    def __init__(self, number, count):
        self.random, self.name = random.Random(f"module {number}"), f"Random-{number}"
        self.sets, self.is_tagged = Sets(self.random), number % 2 == 1
        self.types, self.simple, self.records, self.tags = {}, [], [], []
        makers = (self.integer, self.string, self.octets, self.bits, self.enumerated, self.record, self.record, self.choice, self.list)
        for place in range(count):
            maker = makers[place] if place < 5 else self.random.choice(makers)
            self.tags = self.random.sample(range(40), 40)
            self.types[f"T{place}"] = maker(f"T{place}")

    def words(self, folder):
        """Returns the words of a call of the compiler for what is written in a folder."""
        return ["--types", ",".join(f"{self.name}.{name}" for name in self.types), "--sort", f"{folder}/{self.name}.asn"]

    def texts(self):
        """Returns both spellings of the module."""
        tags = "EXPLICIT TAGS" if self.is_tagged else "AUTOMATIC TAGS"
        written = "".join(f"{name} ::= {it.written}\n" for name, it in self.types.items())
        seen = "".join(f"{name} ::= {it.seen}\n" for name, it in self.types.items())
        more = "Wrapped { Of } ::= SEQUENCE { of Of, beside BOOLEAN }\n"
        return (f"{self.name} DEFINITIONS {tags} ::= BEGIN\n{written}{self.wrapped(more)}END\n",
                f"{self.name} DEFINITIONS AUTOMATIC TAGS ::= BEGIN\n{seen}{more}END\n")

    def wrapped(self, text):
        return text.replace("of Of, beside", "of [1] Of, beside [0]") if self.is_tagged else text

    # Types that hold no others.

    def integer(self, name):
        how = self.random.random()
        if how < 0.15:
            low, high = sorted(self.random.sample(range(-9, 50), 2))
            return Spelled(f"INTEGER {{ low({low}), high({high}) }} (low..high)", f"INTEGER {{ low({low}), high({high}) }} ({low}..{high})")
        found = self.sets.numbers()
        if found.written == found.seen and ".." in found.seen and "..." not in found.seen and found.seen.count("(") == 1:
            self.sets.included.append((name, found.seen))
        self.simple.append(name)
        return Spelled(f"INTEGER{found.written}", f"INTEGER{found.seen}")

    def string(self, name):
        of = self.random.choice(STRINGS)
        found = both("") if of == "UTF8String" else self.sets.strings(of)
        self.simple.append(name)
        return Spelled(f"{of}{found.written}", f"{of}{found.seen}")

    def octets(self, name):
        found = self.sets.sizes()
        self.simple.append(name)
        return Spelled(f"OCTET STRING{found.written}", f"OCTET STRING{found.seen}")

    def bits(self, name):
        found = self.sets.sizes()
        self.simple.append(name)
        return Spelled(f"BIT STRING{found.written}", f"BIT STRING{found.seen}")

    def enumerated(self, name):
        items = [f"item{number}" for number in range(self.random.choice((1, 2, 3, 8, 9, 40, 200)))]
        numbers = self.random.sample(range(len(items) * 2), len(items)) if self.random.random() < 0.4 else None
        shown = [f"{item}({number})" for item, number in zip(items, numbers)] if numbers else items
        if self.random.random() < 0.4:
            shown += ["...", *(f"more{number}" for number in range(self.random.choice((0, 1, 3))))]
        self.simple.append(name)
        return both(f"ENUMERATED {{ {', '.join(shown)} }}")

    # Those that hold others.

    def part_type(self):
        """Returns the type of a component: a name, or one that is written there."""
        how = self.random.random()
        if how < 0.5 and self.simple:
            return both(self.random.choice(self.simple))
        if how < 0.6 and self.records:
            return both(self.random.choice(self.records))
        if how < 0.65 and self.simple:
            return both(f"Wrapped {{ {self.random.choice(self.simple)} }}")
        if how < 0.75:
            found = self.sets.numbers()
            return Spelled(f"INTEGER{found.written}", f"INTEGER{found.seen}")
        if how < 0.85:
            found = self.sets.sizes()
            return Spelled(f"OCTET STRING{found.written}", f"OCTET STRING{found.seen}")
        return both(self.random.choice(("BOOLEAN", "NULL")))

    def parts(self, letter, count, presences):
        """Returns lines of components or alternatives. Tags that are written are in another order than the lines."""
        found = []
        for place in range(count):
            number = self.tags.pop()
            of, presence = self.part_type(), self.random.choice(presences)
            if presence == " DEFAULT" and of.seen != "BOOLEAN":
                presence = " OPTIONAL"
            presence = f"{presence} {self.random.choice(('TRUE', 'FALSE'))}" if presence == " DEFAULT" else presence
            tag = f"[{number}] " if self.is_tagged else ""
            name = f"{letter}{place}of{len(self.types)}"
            found.append((number, Spelled(f"{name} {tag}{of.written}{presence}", f"{name} {of.seen}{presence}")))
        return found

    def record(self, name):
        presences = ("", "", " OPTIONAL", " DEFAULT")
        pieces = [it for _, it in self.parts("a", self.random.randint(0, 6), presences)]
        how = self.random.random()
        if how < 0.5:
            pieces.append(both("..."))
            pieces += [it for _, it in self.parts("b", self.random.randint(0, 3), ("", " OPTIONAL"))] if how < 0.4 else [self.group()]
        if how >= 0.5 and pieces:
            self.records.append(name)
        else:
            self.simple.append(name)
        return joined(pieces, ", ", "SEQUENCE {{ {} }}")

    def group(self):
        """Returns a group of additions, beside which no other stands."""
        return joined([it for _, it in self.parts("c", self.random.randint(1, 3), ("", " OPTIONAL"))], ", ", "[[ {} ]]")

    def choice(self, name):
        found = self.parts("a", self.random.randint(1, 6), ("",))
        order = sorted(found, key=lambda it: it[0]) if self.is_tagged else found
        written, seen = [it for _, it in found], [it for _, it in order]
        if self.random.random() < 0.4:
            more = [both("..."), *(it for _, it in self.parts("b", self.random.randint(0, 3), ("",)))]
            written, seen = [*written, *more], [*seen, *more]
        self.simple.append(name)
        return Spelled(joined(written, ", ", "CHOICE {{ {} }}").written, joined(seen, ", ", "CHOICE {{ {} }}").seen)

    def list(self, name):
        of = self.part_type()
        self.simple.append(name)
        if self.random.random() < 0.2:      # of more than one asn1ct keeps the order in which they are given
            return Spelled(f"SET (SIZE (0..1)) OF {of.written}", f"SET (SIZE (0..1)) OF {of.seen}")
        size = self.sets.sizes(of_list=True)
        return Spelled(f"SEQUENCE{size.written} OF {of.written}", f"SEQUENCE{size.seen} OF {of.seen}")
