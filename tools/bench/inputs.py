"""The encodings that every program of the benchmark reads, made by the rules of X.691 here and by no program under test, and
messages of protocols, as rows/protocols has them."""
import collections
import random

from repository import TOP

OCTETS_1K = 1024
OCTETS_1M = 1 << 20


class Bits:
    """A bit-field that grows."""

    def __init__(self, aligned):
        self.aligned = aligned
        self.octets = bytearray()
        self.spare = 0

    def put(self, value, width):
        """Appends the number in so many bits, the first of which has the most weight."""
        if self.spare:
            value |= self.octets.pop() >> self.spare << width
            width += 8 - self.spare
        self.spare = -width % 8
        self.octets += (value << self.spare).to_bytes((width + self.spare) // 8, "big")

    def align(self):
        """In APER fills the last octet with zero bits (X.691 11.2, 11.5.7)."""
        if self.aligned:
            self.spare = 0

    def complete(self):
        """Returns all octets, at least one (X.691 11.1.3)."""
        return bytes(self.octets) or b"\0"


def put_octets(to, octets):
    to.put(int.from_bytes(octets, "big"), 8 * len(octets))


def put_length(to, length):
    """A length without an upper bound, below 16 Ki (X.691 11.9.3.6, 11.9.3.7)."""
    if length < 128:
        to.put(length, 8)
    else:
        to.put(0x8000 | length, 16)


def put_counted(to, octets):
    """Octets behind their lengths, in fragments from 16 Ki (X.691 11.9.3.8)."""
    to.align()
    while len(octets) >= 16384:
        units = min(4, len(octets) // 16384)
        to.put(0xC0 | units, 8)
        put_octets(to, octets[: units * 16384])
        octets = octets[units * 16384 :]
    put_length(to, len(octets))
    put_octets(to, octets)


def put_integer(to, number):
    """An INTEGER without bounds (X.691 11.4, 13.2.6)."""
    count = (max(number.bit_length(), (~number).bit_length()) + 8) // 8
    put_counted(to, number.to_bytes(count, "big", signed=True))


def put_ranged(to, above, greatest):
    """How far a number is above its lower bound, of at most so much (X.691 11.5.6, 11.5.7)."""
    width = greatest.bit_length()
    if to.aligned and greatest >= 255:
        to.align()
        width = 8 if greatest == 255 else 16
    to.put(above, width)


def put_four(to, number, bounded):
    to.put(1, 1)
    put_integer(to, number)
    to.put(0, 1)
    put_ranged(to, bounded + 10, 410)


def put_inner(to, flag, octets):
    """A BOOLEAN and an OCTET STRING (SIZE (3)), which X.691 17.7 aligns in APER."""
    to.put(flag, 1)
    to.align()
    put_octets(to, octets)


def put_visible(to, text):
    """A VisibleString: seven bits a character, eight in APER (X.691 30.5.2)."""
    to.align()
    put_length(to, len(text))
    for character in text:
        to.put(character, 8 if to.aligned else 7)


def put_optional(to, octets):
    """Three of five optional components are there (X.691 19.2)."""
    to.put(0b10101, 5)
    to.put(1, 1)
    put_ranged(to, 200, 255)
    put_counted(to, octets)
    put_ranged(to, -9 + 10, 410)


def put_list(to, numbers):
    to.align()
    put_length(to, len(numbers))
    for number in numbers:
        put_four(to, number, number % 411 - 10)


def put_group(to):
    """The extension bit, the root, one addition that is there, and the group as an open type (X.691 19.1 to 19.9)."""
    to.put(1, 1)
    to.put(0b10, 2)
    to.put(0, 7)
    to.put(1, 1)
    inner = Bits(to.aligned)
    put_inner(inner, 1, b"\x12\x34\x56")
    put_counted(to, inner.complete())


def put_choice(to):
    """The extension bit, and the second of two alternatives in the root (X.691 23.5 to 23.7)."""
    to.put(0, 1)
    to.put(1, 1)
    put_inner(to, 1, b"\x12\x34\x56")


def put_after(to, octets):
    to.put(1, 1)
    put_counted(to, octets)


def kinds():
    """Returns for each kind what it is, and how to put its value."""
    chance = random.Random(691)
    short, long = chance.randbytes(OCTETS_1K), chance.randbytes(OCTETS_1M)
    text = [chance.randrange(32, 127) for _ in range(1024)]
    numbers = [chance.randrange(-(1 << 39), 1 << 39) for _ in range(100)]
    return {
        "four": ("`four`", lambda to: put_four(to, 43554344223, -9)),
        "integer": ("INTEGER", lambda to: put_integer(to, 43554344223)),
        "octets1k": ("OCTET STRING of 1 KiB", lambda to: put_counted(to, short)),
        "octets1m": ("OCTET STRING of 1 MiB", lambda to: put_counted(to, long)),
        "behind1k": ("the same of 1 KiB behind a bit", lambda to: put_after(to, short)),
        "behind1m": ("the same of 1 MiB behind a bit", lambda to: put_after(to, long)),
        "visible1k": ("VisibleString of 1 KiB", lambda to: put_visible(to, text)),
        "optional": ("record with optional components", lambda to: put_optional(to, b"\1\2\3\4\5")),
        "list": ("list of 100 records", lambda to: put_list(to, numbers)),
        "group": ("extensible record with a group", put_group),
        "choice": ("CHOICE", put_choice),
    }


def message(protocol, name):
    """Returns the octets of a row of rows/protocols."""
    with open(f"{TOP}/rows/protocols/{protocol}.tsv", encoding="utf-8") as it:
        rows = [line.split("\t") for line in it]
    return bytes.fromhex(next(row[5] for row in rows if row[3:4] == [name]))


def element(octets, identifier):
    """Returns the value of an element of a NGAP message: behind its identifier, its criticality and a short length."""
    at = octets.index(identifier.to_bytes(2, "big") + b"\0") + 4
    return octets[at : at + octets[at - 1]]


# The messages: what each is, in which variant, and its octets.
MESSAGES = {
    "cam": ("CAM (ITS)", "uper", message("cam", "cam_high_frequency_all")),
    "areas": ("SupportedTAList (NGAP)", "aper", element(message("ngap", "ng_setup_request"), 102)),
}

# Whole messages, which threads read and write again at once, and the file of schemas/ that has the type of each.
Message = collections.namedtuple("Message", "title variant octets type file")
AT_ONCE = (
    Message(*MESSAGES["cam"], "CAM-PDU-Descriptions.CAM", "its"),
    Message(
        "InitialContextSetupRequest (NGAP)", "aper", message("ngap", "initial_context_setup_request"),
        "NGAP-PDU-Descriptions.NGAP-PDU", "ngap",
    ),
)

# The types of the kinds, as schema files name them, and the file of schemas/ of one that isn't of Bench.asn1.
TYPES = {
    "four": "Bench.Four",
    "integer": "Bench.Whole",
    "octets1k": "Bench.Octets",
    "octets1m": "Bench.Octets",
    "behind1k": "Bench.Behind",
    "behind1m": "Bench.Behind",
    "visible1k": "Bench.Visible",
    "optional": "Bench.Report",
    "list": "Bench.Fours",
    "group": "Bench.Outer",
    "choice": "Bench.Alt",
    "cam": "CAM-PDU-Descriptions.CAM",
    "areas": "NGAP-IEs.SupportedTAList",
}
SCHEMAS = {"cam": "its", "areas": "ngap"}


def titles():
    """Returns what each kind is."""
    return {kind: it[0] for kind, it in [*kinds().items(), *MESSAGES.items()]}


def lines(variant):
    """Returns the line of hexadecimal of each kind that is written in a variant."""
    found = {kind: line_of(put, variant == "aper") for kind, (_, put) in kinds().items()}
    return found | {kind: f"{octets.hex()}\n" for kind, (_, it, octets) in MESSAGES.items() if it == variant}


def line_of(put, aligned):
    """Returns the line of hexadecimal of a value."""
    to = Bits(aligned)
    put(to)
    return to.complete().hex() + "\n"


def octets_line(size):
    """Returns the line of an OCTET STRING of so many octets, none of which is zero."""
    to = Bits(False)
    put_counted(to, b"\x55" * size)
    return to.complete().hex() + "\n"
