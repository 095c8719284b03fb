"""Reads a schema file by the rules of docs/SCHEMA-FILE.md alone, and says which line breaks one, before it is written."""
import re
from dataclasses import dataclass, field

PLAIN = """boolean null object_identifier utc_time generalized_time date utf8_string general_string graphic_string teletex_string
videotex_string object_descriptor""".split()
SIZED = ("octet_string", "bit_string", "named_bits")
LETTERED = ("ia5_string", "visible_string", "printable_string", "numeric_string", "bmp_string", "universal_string")
OCTETS = ("octet_string", "utf8_string", "general_string", "graphic_string", "teletex_string", "videotex_string",
          "object_descriptor")
# The types of which each sort of value is one.
TYPES = {
    "true": ["boolean"], "false": ["boolean"], "null": ["null"], "int": ["integer"], "item": ["enumerated"], "octets": OCTETS,
    "bits": ["bit_string", "named_bits"], "oid": ["object_identifier"], "list": ["sequence_of", "set_of"],
    "characters": [*LETTERED, "utc_time", "generalized_time"], "record": ["sequence", "set"], "chosen": ["choice"],
}
NUMBER = re.compile(r"0|-?[1-9][0-9]*")
NAME = re.compile(r"[A-Za-z][A-Za-z0-9-]*")
TAG = re.compile(r"-|[uacp](0|[1-9][0-9]*)")
CLASSES = "uacp"


class Wrong(Exception):
    """A line breaks a rule."""


@dataclass
class Part:
    name: str
    tag: str
    presence: str       # r, o or d; g of a group; a of an alternative
    place: int
    default: list = None


@dataclass
class Line:
    kind: str
    root: list = field(default_factory=list)    # parts or names
    added: list = None
    place: int = None   # of elements or contents
    size: tuple = (0, None, False)
    bounds: tuple = (None, None, False)
    rows: list = field(default_factory=list)    # of an open type: the value that chooses, and the place

    @property
    def parts(self):
        return [*self.root, *(self.added or [])]


class Words:
    """The words of a line, read one after another."""

    def __init__(self, line, types):
        self.left, self.types = line.split(" "), types
        self.left.reverse()

    def word(self, pattern=None):
        if not self.left or not self.left[-1]:
            raise Wrong("a word lacks")
        found = self.left.pop()
        if pattern and not re.fullmatch(pattern, found):
            raise Wrong(f"{found} has no place here")
        return found

    def number(self, least=None):
        found = int(self.word(NUMBER))
        if least is not None and found < least:
            raise Wrong(f"{found} is below {least}")
        return found

    def maybe(self, read):
        if self.left[-1:] == ["-"]:
            return self.left.pop() and None
        return read()

    def count(self):
        return self.number(0)

    def place(self):
        found = self.count()
        if found >= self.types:
            raise Wrong(f"there is no place {found}")
        return found

    def bounds(self, least=None):
        low = self.maybe(self.number) if least is None else self.number(least)
        high = self.maybe(self.number)
        if None not in (low, high) and low > high:
            raise Wrong(f"{low} is above {high}")
        return low, high, self.word(r"-|\.\.\.") == "..."

    def alphabet(self):
        last = -2
        for _ in range(self.maybe(lambda: self.number(1)) or 0):
            low, high = self.count(), self.count()
            if low <= last + 1 or high < low:
                raise Wrong("ranges of an alphabet don't ascend")
            last = high

    def value(self):
        """Returns a VALUE, as a list."""
        head = self.word()
        if head in ("true", "false", "null", "absent"):
            return [head]
        if head == "int":
            return [head, self.number()]
        if head == "item":
            return [head, self.word("root|added"), self.count()]
        if head == "octets":
            return [head, bytes.fromhex(self.word("-|([0-9a-f]{2})+").replace("-", ""))]
        if head == "bits":
            return [head, self.word("-|[01]+").replace("-", "")]
        if head in ("characters", "oid"):
            return [head, [self.count() for _ in range(self.count())]]
        if head == "list":
            return [head, [self.value() for _ in range(self.count())]]
        if head == "record":
            return [head, [self.value() for _ in range(self.count())]]
        if head == "chosen":
            return [head, self.word("root|added"), self.count(), self.value()]
        raise Wrong(f"there is no value {head}")

    def part(self, is_added):
        if self.left[-1:] == ["[["] and is_added:
            self.left.pop()
            return Part("[[", self.word(TAG), "g", self.place())
        name, tag, presence, place = self.word(NAME), self.word(TAG), self.word("[rod]"), self.place()
        return Part(name, tag, presence, place, self.value() if presence == "d" else None)

    def lists(self, read):
        """Returns what stands in the root, and what behind the marker."""
        root, added = self.count(), self.maybe(self.count)
        return [read(False) for _ in range(root)], None if added is None else [read(True) for _ in range(added)]

    def row(self, has_fixed):
        value, _, place = self.value(), self.word(r"[A-Za-z][A-Za-z0-9_-]*"), self.place()
        if self.maybe(self.value) and not has_fixed:
            raise Wrong("there is no component for what a row fixes")
        self.word(r"-|[a-z][A-Za-z0-9-]*")
        return value, place

    def type(self):
        """Returns the type of a line."""
        kind = self.word()
        found = Line(kind)
        if kind == "integer":
            found.bounds = self.bounds()
        elif kind in (*SIZED, *LETTERED):
            found.size = self.bounds(0)
            if kind in LETTERED:
                self.alphabet()
        elif kind in ("sequence_of", "set_of"):
            found.place, found.size = self.place(), self.bounds(0)
        elif kind == "containing":
            found.place = self.place()
        elif kind == "enumerated":
            found.root, found.added = self.lists(lambda _: self.word(NAME))
        elif kind in ("sequence", "set"):
            found.root, found.added = self.lists(self.part)
        elif kind == "choice":
            found.root, found.added = self.lists(lambda _: Part(self.word(NAME), self.word(TAG), "a", self.place()))
        elif kind == "open_type" and self.left:
            self.count()
            fixed = self.maybe(self.count)
            found.rows = [self.row(fixed is not None) for _ in range(self.number(1))]
        elif kind not in (*PLAIN, "open_type"):
            raise Wrong(f"there is no type {kind}")
        if self.left:
            raise Wrong(f"{self.left[-1]} is a word too many")
        return found


class File:
    """What a schema file says. `faults` has what is wrong, with the number of the line in front."""

    def __init__(self, text):
        self.faults, self.types, self.roots = [], [], {}
        lines = text.split("\n")
        head = re.fullmatch(r"per_schema 1 (\d+) (\d+) (\d+)", lines[0])
        counts = [int(it) for it in head.groups()] if head else []
        if not head or lines.pop() or len(lines) != 1 + sum(counts):
            self.faults.append("1: it doesn't say what follows")
            return
        readers = [self.module] * counts[0] + [self.type] * counts[1] + [self.root] * counts[2]
        for number, (read, line) in enumerate(zip(readers, lines[1:]), 2):
            self.tried(number, read, Words(line, counts[1]))
        finite = self.finite()
        for place, line in enumerate(self.types):
            self.tried(place + 2 + counts[0], self.judge, line)
            if place not in finite:
                self.faults.append(f"{place + 2 + counts[0]}: it needs itself")

    def tried(self, number, read, *given):
        try:
            read(*given)
        except Wrong as why:
            self.faults.append(f"{number}: {why}")

    def module(self, words):
        words.word("module")
        words.word(NAME)
        words.word()

    def root(self, words):
        words.word("root")
        key = words.word(NAME), words.word(NAME)
        if key in self.roots:
            raise Wrong(f"{key[1]} is named twice")
        self.roots[key] = words.place()

    def type(self, words):
        self.types.append(Line("wrong"))
        self.types[-1] = words.type()

    # What can be judged behind the last line.

    def finite(self):
        """Returns the places of types that have a value."""
        found, before = set(), None
        while found != before:
            before = set(found)
            found |= {place for place, line in enumerate(self.types) if self.has_value(line, found)}
        return found

    @staticmethod
    def has_value(line, found):
        if line.kind in ("sequence", "set"):
            return all(part.presence in "og" or part.place in found for part in line.parts)
        if line.kind == "choice":
            return any(part.place in found for part in line.parts)
        if line.kind == "containing" or line.kind in ("sequence_of", "set_of") and line.size[0] > 0:
            return line.place in found
        return True

    def judge(self, line):
        if line.kind == "enumerated":
            self.differ("names", line.parts)
        elif line.kind in ("sequence", "set", "choice"):
            for part in filter(lambda it: it.presence == "g", line.parts):
                group = self.types[part.place]
                if group.kind != "sequence" or group.added is not None:
                    raise Wrong(f"{part.place} is no group")
            self.differ("names", [name for part in line.parts for name in self.names(part)])
            if line.kind != "sequence":
                self.differ("tags", [tag for part in line.parts for tag in self.tags(part)])
            if line.kind == "choice" and line.root != sorted(line.root, key=lambda it: min(self.tags(it), default=(4, 0))):
                raise Wrong("alternatives don't stand in the order of their tags")
            for part in filter(lambda it: it.presence == "d", line.parts):
                self.expect(part.default, part.place)
        self.differ("rows", [str(value) for value, _ in line.rows])

    @staticmethod
    def differ(what, found):
        if len(set(found)) < len(found):
            raise Wrong(f"{what} that are the same")

    def names(self, part):
        return [part.name] if part.presence != "g" else [it.name for it in self.types[part.place].root]

    def tags(self, part):
        if part.tag != "-":
            return [(CLASSES.index(part.tag[0]), int(part.tag[1:]))] if part.presence != "g" else []
        of = self.types[part.place]
        return [tag for it in of.parts for tag in self.tags(it)] if of.kind == "choice" else []

    def expect(self, value, place):
        """Refuses a value that isn't one of the type at a place."""
        of, head = self.types[place], value[0]
        if of.kind == "containing":
            return self.expect(value, of.place)
        if of.kind not in TYPES.get(head, []):
            raise Wrong(f"{head} is no value of {of.kind}")
        if head == "int":
            self.within(of.bounds, value[1])
        elif of.kind in (*SIZED, *LETTERED, "sequence_of", "set_of"):
            self.within(of.size, len(value[1]))
        if head == "list":
            return [self.expect(it, of.place) for it in value[1]]
        if head == "record":
            return self.expect_slots(value[1], of.parts)
        if head in ("item", "chosen"):
            side = of.root if value[1] == "root" else of.added or []
            if value[2] >= len(side):
                raise Wrong(f"there is no {head} {value[2]}")
            return head == "item" or self.expect(value[3], side[value[2]].place)
        return None

    @staticmethod
    def within(bounds, number):
        low, high, is_marked = bounds
        if not is_marked and (low is not None and number < low or high is not None and number > high):
            raise Wrong(f"{number} isn't within its bounds")

    def expect_slots(self, slots, parts):
        if len(slots) != len(parts):
            raise Wrong("a record has another number of slots")
        for slot, part in zip(slots, parts):
            if slot != ["absent"]:
                self.expect(slot, part.place)
            elif part.presence not in ("o", "g"):
                raise Wrong(f"{part.name} may not be absent")
