"""The messages of rows/protocols, and their values, which stand there as terms of Erlang."""
import collections
import re

from repository import TOP, Failure

# The files of rows/protocols with the messages of each protocol.
FILES = {
    "its": ("cam", "denm", "spatem", "mapem"), "t38_2002": ("t38",),
    **{name: (name,) for name in ("ngap", "s1ap", "lte_rrc", "lte_rrc_more", "nr_rrc")},
}
Message = collections.namedtuple("Message", "protocol variant type name value octets")
# A term: an atom, a string, a number, or a mark of a list, a tuple, a map or a binary.
TOKEN = re.compile(r"""\s*(?:(?P<mark>\#\{|<<|>>|=>|[\[\]{},:/])|'(?P<quoted>(?:[^'\\]|\\.)*)'|"(?P<text>(?:[^"\\]|\\.)*)"
    |(?P<number>-?[0-9]+)|(?P<atom>[a-z]\w*))""", re.VERBOSE)
ESCAPES = {"n": "\n", "r": "\r", "t": "\t", "v": "\v", "b": "\b", "f": "\f", "e": "\x1b", "d": "\x7f", "s": " ", "0": "\0"}


class Atom(str):
    """An atom: an item, a truth, NULL, or the name of an alternative or a component."""


class Bits(str):
    """A binary, as a text of the bits 0 and 1."""


def messages(file):
    """Returns the messages of a file of rows/protocols."""
    with open(f"{TOP}/rows/protocols/{file}.tsv", encoding="utf-8") as it:
        rows = [line.rstrip("\n").split("\t") for line in it if not line.startswith("#")]
    return [Message(*row[:4], Term(row[4]).read(), row[5]) for row in rows]


def messages_of(protocol):
    """Gives the messages of a protocol, each with its type."""
    known = {it.name: it for it in protocol.known}
    for file in FILES.get(protocol.name, ()):
        yield from ((known[it.type], it) for it in messages(file))


class Term:
    """A text of one term, and how far it is read."""

    def __init__(self, text):
        self.text, self.place = text, 0

    def next(self):
        """Takes the next token: what it is, and its text."""
        found = TOKEN.match(self.text, self.place)
        if not found:
            raise Failure(f"this is no term: {self.text[self.place : self.place + 40]}")
        self.place = found.end()
        return found.lastgroup, found[found.lastgroup]

    def is_next(self, mark):
        """Takes a mark, where it stands next, and tells whether it does."""
        found = TOKEN.match(self.text, self.place)
        if not found or found["mark"] != mark:
            return False
        self.place = found.end()
        return True

    def read(self):
        """Takes a term: a map is a dict, a tuple a tuple, a list a list or a text, a binary its bits."""
        what, text = self.next()
        if what == "mark":
            opened = {"#{": self.map, "{": lambda: tuple(self.until("}")), "[": lambda: [*self.until("]")], "<<": self.binary}
            if text not in opened:
                raise Failure(f"this is no term: {text}{self.text[self.place : self.place + 40]}")
            return opened[text]()
        if what == "number":
            return int(text)
        plain = re.sub(r"\\(.)", lambda it: ESCAPES.get(it[1], it[1]), text)
        return plain if what == "text" else Atom(plain)

    def until(self, mark):
        """Gives terms up to a mark that closes them."""
        while not self.is_next(mark):
            yield self.read()
            self.is_next(",")

    def map(self):
        found = {}
        while not self.is_next("}"):
            key = self.read()
            self.next()
            found[key] = self.read()
            self.is_next(",")
        return found

    def binary(self):
        """Takes a binary: numbers, of eight bits where no size is told, and texts."""
        bits = ""
        while not self.is_next(">>"):
            what, text = self.next()
            if what == "text":
                plain = re.sub(r"\\(.)", lambda it: ESCAPES.get(it[1], it[1]), text)
                is_utf8 = self.is_next("/") and self.next()[1] == "utf8"
                bits += "".join(f"{octet:08b}" for octet in plain.encode("utf-8" if is_utf8 else "latin-1"))
            else:
                size = int(self.next()[1]) if self.is_next(":") else 8
                bits += f"{int(text) % 2**size:0{size}b}" if size else ""
            self.is_next(",")
        return Bits(bits)


def leaves(value, name=""):
    """Gives the leaves of a value: the name of the component, alternative or list in which each stands, and what it is.
    An alternative is a leaf itself, and its value stands under its name."""
    if isinstance(value, dict):
        for key, held in value.items():
            yield from leaves(held, name if re.fullmatch(r"ExtAddGroup\d+", key) else key)
    elif isinstance(value, tuple):
        yield name, value[0]
        yield from leaves(value[1], value[0])
    elif isinstance(value, list):
        for held in value:
            yield from leaves(held, name)
    else:
        yield name, value
