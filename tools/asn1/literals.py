"""Values in the words of a schema file (docs/SCHEMA-FILE.md)."""
from constraints import LETTERS
from definitions import Bits
from notation import Refused, kind, parts
from whole import LISTS, RECORDS

TIMES = ("UTCTime", "GeneralizedTime")
# Strings whose values are octets.
AS_OCTETS = ("UTF8String", "GeneralString", "GraphicString", "TeletexString", "VideotexString", "ObjectDescriptor")
DEEPEST = 255


def hexadecimal(octets):
    return ["octets", bytes(octets).hex() or "-"]


def side_of(name, root, added):
    """Returns the side on which a name stands and its place there, as words."""
    if name in root:
        return ["root", str(root.index(name))]
    if name not in (added or []):
        raise Refused(f"there is no {name}")
    return ["added", str(added.index(name))]


class Literals:
    """Values of types: `node` is a value as it was parsed, and `default` one as resolve.py has defaults."""

    def __init__(self, modules):
        self.modules = modules

    def value(self, node, use, depth=0):
        """Returns the words of a value of a type as it was parsed."""
        return self.default(self.modules.default(node, self.modules.whole(use)), use, depth)

    def default(self, found, use, depth=0):
        """Returns the words of a value as resolve.py has defaults."""
        of = self.modules.whole(use)
        if depth > DEEPEST:
            raise Refused(f"a value holds values more than {DEEPEST} deep")
        if of.contained:
            raise Refused("a value of octets that contain a value isn't taken")
        if of.kind in RECORDS:
            return self.record(found, of, depth)
        if of.kind in LISTS:
            inner = [word for it in self.expect(found, list) for word in self.value(it, of.element, depth + 1)]
            return ["list", str(len(found)), *inner]
        if of.kind == "CHOICE":
            return self.chosen(found, of, depth)
        return self.simple(found, of)

    @staticmethod
    def expect(found, what):
        if not isinstance(found, what):
            raise Refused(f"{found} is no value of its type")
        return found

    def simple(self, found, of):
        """Returns the words of a value that holds no others."""
        if of.kind == "BOOLEAN":
            return ["true" if found else "false"]
        if of.kind == "NULL":
            return ["null"]
        if of.kind == "INTEGER":
            return ["int", str(self.expect(found, int))]
        if of.kind == "ENUMERATED":
            return ["item", *side_of(self.expect(found, str), of.items, of.added_items)]
        if of.kind == "OCTET STRING":
            return hexadecimal(self.expect(found, bytes))
        if of.kind == "BIT STRING":
            return ["bits", self.trimmed(self.expect(found, Bits), of) or "-"]
        if of.kind in AS_OCTETS:
            return hexadecimal("".join(map(chr, self.codes(found))).encode())
        if of.kind in LETTERS or of.kind in TIMES:
            codes = self.codes(found)
            return ["characters", str(len(codes)), *map(str, codes)]
        if of.kind == "OBJECT IDENTIFIER":
            return ["oid", str(len(found)), *map(str, self.expect(found, tuple))]
        raise Refused(f"a value of {of.kind} isn't taken")

    @staticmethod
    def trimmed(bits, of):
        """Returns bits that have names without zeros at their end but those that the size asks for (X.680 22.7)."""
        if of.held_kind != "NAMED BITS":
            return bits
        return bits.rstrip("0").ljust(of.limits.size[0] if of.limits.size else 0, "0")

    def codes(self, found):
        return self.modules.text(found) if isinstance(found, list) else [*self.expect(found, tuple)]

    def record(self, found, of, depth):
        """Returns the words of a SEQUENCE or a SET: a slot for each part."""
        given = {parts_of(it)[0]["val"]: parts_of(it)[1] for it in self.expect(found, list)}
        slots = [word for part in of.all_parts for word in self.slot(part, given, depth + 1)]
        if given:
            raise Refused(f"{', '.join(given)} is no component of its type")
        return ["record", str(len(of.all_parts)), *slots]

    def slot(self, part, given, depth):
        if part.group is not None:
            return self.group(part.group, given, depth)
        if part.name in given:
            return self.value(given.pop(part.name), part.use, depth)
        if part.presence == "default":
            return self.default(part.default, part.use, depth)
        if part.presence == "required":
            raise Refused(f"a value has no {part.name}")
        return ["absent"]

    def group(self, parts_there, given, depth):
        """Returns the words of a group: it is absent where each of its components is, or is at its default (X.691 19.9)."""
        if not any(part.name in given for part in parts_there):
            return ["absent"]
        slots = [self.slot(part, given, depth + 1) for part in parts_there]
        left_out = [["absent"] if it.presence != "default" else self.slot(it, {}, depth + 1) for it in parts_there]
        return ["absent"] if slots == left_out else ["record", str(len(slots)), *sum(slots, [])]

    def chosen(self, found, of, depth):
        """Returns the words of a CHOICE, whose root alternatives stand in the order of their tags."""
        name, inner = parts_of(parts(found)[0]) if kind(found) == "CHOICE" else (None, None)
        root = self.modules.ordered(of)
        side = side_of(name, [part.name for part in root], [part.name for part in of.added or []])
        part = next(it for it in of.all_parts if it.name == name)
        return ["chosen", *side, *self.value(inner, part.use, depth + 1)]


def parts_of(node):
    """Returns both parts of a pair."""
    if not isinstance(node, dict) or len(node.get("t", [])) != 2:
        raise Refused("a value isn't one of its type")
    return node["t"]
