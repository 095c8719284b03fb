"""The table of types of a schema file (docs/SCHEMA-FILE.md): a line of words a type, in which types are named by their places."""
from dataclasses import dataclass

from literals import Literals
from notation import Refused, kind, placed
from objects import type_node
from whole import LISTS, RECORDS, Governed

PLAIN = {
    "BOOLEAN": "boolean", "NULL": "null", "OBJECT IDENTIFIER": "object_identifier", "UTCTime": "utc_time",
    "GeneralizedTime": "generalized_time", "DATE": "date", "UTF8String": "utf8_string", "GeneralString": "general_string",
    "GraphicString": "graphic_string", "TeletexString": "teletex_string", "VideotexString": "videotex_string",
    "ObjectDescriptor": "object_descriptor",
}
SIZED = {"OCTET STRING": "octet_string", "BIT STRING": "bit_string", "NAMED BITS": "named_bits"}
LETTERED = {
    "IA5String": "ia5_string", "VisibleString": "visible_string", "PrintableString": "printable_string",
    "NumericString": "numeric_string", "BMPString": "bmp_string",
}
CLASS_LETTERS = {"UNIVERSAL": "u", "APPLICATION": "a", "CONTEXT": "c", "PRIVATE": "p"}
PRESENCES = {"required": "r", "optional": "o", "default": "d"}


@dataclass(frozen=True)
class Place:
    """A type in the table."""
    number: int


def bound(number):
    return "-" if number is None else str(number)


def bound_words(bounds, least=None):
    """Returns the words of bounds: the least, the most, and the marker."""
    low, high, marked = bounds or (None, None, False)
    return [bound(least if low is None else low), bound(high), "..." if marked else "-"]


def size_words(limits):
    return bound_words(limits.size, 0)


def alphabet_words(codes):
    """Returns the words of a permitted alphabet: its ranges."""
    if codes is None:
        return ["-"]
    ranges = []
    for code in sorted(set(codes)):
        if ranges and ranges[-1][1] + 1 == code:
            ranges[-1][1] = code
        else:
            ranges.append([code, code])
    return [str(len(ranges)), *(str(end) for pair in ranges for end in pair)]


def tag_word(tag):
    return f"{CLASS_LETTERS[tag[0]]}{tag[1]}" if tag else "-"


def count(parts):
    return "-" if parts is None else str(len(parts))


class Table:
    """The lines of all types that were asked for, with all that they are made of, and the definitions that others name. `around`
    is the SEQUENCE or SET in which a type stands, whose components may choose of which type an open type is."""

    def __init__(self, modules):
        self.modules, self.literals = modules, Literals(modules)
        self.lines, self.places, self.named, self.within = [], {}, set(), []

    def definition(self, module, name):
        """Returns the place of a definition. Where it is refused, nothing is left of what was begun with it."""
        start = len(self.lines)
        try:
            return self.of(self.modules.use_of(module, name))
        except Refused:
            del self.lines[start:]
            self.places = {key: place for key, place in self.places.items() if place.number < start}
            raise

    def of(self, use, around=None):
        """Returns the place of a type where it is used."""
        if isinstance(use, Governed) and use.type.kind == "OPEN":
            return self.made(lambda: self.open_type(use, around))
        if use.name and self.within[-1:] not in ([], [use.name]):
            self.named.add(use.name)
        if not use.name or use.own:
            return self.made(lambda: self.words(self.modules.whole(use), around))
        if use.name not in self.places:
            self.within.append(use.name)
            try:
                self.put(use.name, self.modules.full(use.name))
            finally:
                self.within.pop()
        return self.places[use.name]

    def put(self, key, full):
        """Gives a definition its place: that of the type for which it is another name, or one of its own."""
        if full.name and not full.own:
            self.places[key] = self.of(full)
        else:
            self.made(lambda: self.words(full.type, None), key)

    def made(self, words, key=None):
        """Returns the place of a line, which is kept for it before what stands in it has one."""
        place = Place(len(self.lines))
        self.lines.append(None)
        if key:
            self.places[key] = place
        self.lines[place.number] = words()
        return place

    def words(self, of, around):
        """Returns the line of a type."""
        if of.contained:
            return ["containing", self.of(of.contained)]
        if of.kind in PLAIN:
            return [PLAIN[of.kind]]
        if of.kind == "OPEN":
            return ["open_type"]
        if of.kind == "INTEGER":
            return ["integer", *bound_words(of.limits.value)]
        if of.held_kind in SIZED:
            return [SIZED[of.held_kind], *size_words(of.limits)]
        if of.kind in LETTERED:
            return [LETTERED[of.kind], *size_words(of.limits), *alphabet_words(of.limits.alphabet)]
        if of.kind in LISTS:
            return ["sequence_of" if of.kind == "SEQUENCE OF" else "set_of", self.of(of.element, around), *size_words(of.limits)]
        if of.kind == "ENUMERATED":
            return ["enumerated", count(of.items), count(of.added_items), *of.items, *(of.added_items or [])]
        if of.kind in RECORDS or of.kind == "CHOICE":
            return self.list(of, around)
        raise Refused(f"the type {of.kind} isn't taken")

    def list(self, of, around):
        """Returns the line of a SEQUENCE, a SET or a CHOICE."""
        around = of if of.kind in RECORDS else around
        head = [of.kind.lower(), count(of.parts), count(of.added)]
        parts = [*self.modules.ordered(of), *(of.added or [])]
        return [*head, *(word for part in parts for word in self.part(of, part, around))]

    def part(self, of, part, around):
        """Returns the words of a component, a group or an alternative."""
        if part.group is not None:
            return ["[[", tag_word(part.outer), self.made(lambda: self.group(part.group))]
        with placed(part.module, part.line):
            place = self.of(part.use, around)
            if of.kind == "CHOICE":
                return [part.name, tag_word(part.outer), place]
            default = self.literals.default(part.default, part.use) if part.presence == "default" else []
            return [part.name, tag_word(part.outer), PRESENCES[part.presence], place, *default]

    def group(self, parts):
        """Returns the line of a group: a SEQUENCE of its components."""
        group = self.modules.group_type(parts)
        return self.list(group, group)

    # Open types.

    def open_type(self, use, around):
        """Returns the line of an open type, with the rows of its object set where a component beside it says which object."""
        beside = around.all_parts if around else []
        places = {part.name: place for place, part in enumerate(beside) if part.group is None}
        if not use.objects or use.chooser not in places:
            return ["open_type"]
        chooser = places[use.chooser]
        fixed = next((it for it, part in enumerate(beside) if self.is_fixed(part, use)), None)
        rows = self.rows(use, beside[chooser], None if fixed is None else beside[fixed])
        return ["open_type", str(chooser), bound(fixed), str(len(rows)), *sum(rows.values(), [])] if rows else ["open_type"]

    @staticmethod
    def is_fixed(part, use):
        """Returns whether the object that an open type's chooser names says the value of a component, too."""
        of = part.use
        return isinstance(of, Governed) and of.type.kind != "OPEN" and bool(of.chooser) and of.chooser == use.chooser

    def rows(self, use, chooser, fixed):
        """Returns the rows of an open type, by the words of the values that choose them."""
        found = {}
        if not isinstance(chooser.use, Governed):
            return found
        for fields, module in self.modules.members(*use.objects, use.owner):
            if use.field in fields and chooser.use.field in fields:
                key = self.literals.value(fields[chooser.use.field], chooser.use)
                row = [*key, *self.row(fields, module, use, fixed)]
                if found.setdefault(tuple(key), row) != row:
                    raise Refused(f"two objects of a set have the same {chooser.use.field}, {' '.join(key)}")
        return dict(sorted(found.items(), key=lambda it: order_of(it[0])))

    def row(self, fields, module, use, fixed):
        """Returns of an object its type's name and place, what it fixes and its presence."""
        held = self.modules.type(type_node(fields[use.field]), module, {}, (use.field,))
        name = held.name[1].split()[0] if held.name and not held.own else held.type.kind.replace(" ", "_")
        value = self.literals.value(fields[fixed.use.field], fixed.use) if fixed and fixed.use.field in fields else ["-"]
        presence = fields.get("presence")
        return [name, self.of(held), *value, presence["value"] if kind(presence) == "Externalvaluereference" else "-"]


def order_of(words):
    """Returns what rows are sorted by: numbers by their size."""
    return [(0, int(word), "") if word.lstrip("-").isdigit() else (1, 0, word) for word in words]

