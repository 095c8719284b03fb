"""What is compared of a protocol, and where the others differ."""
import collections
from dataclasses import dataclass

import dissect
from forms import in_words
from hostile import BIT, END_ALONE, FRONT, LONGER, changed, is_right, refusals
from messages import messages_of

# Octets of a message are tried at each place.
EACH = 1 << 20
# What was given, where it wasn't changed: an encoding of asn1ct, and what it makes of one where that is another.
WHOLE, AGAIN = "values", "again"
# What a difference is: a value that asn1ct doesn't encode; octets of its that aren't read here, are written otherwise, or show
# another value; a reply that no changed octets have; octets that asn1ct doesn't read as what it wrote; octets with a bit turned
# that one alone reads, or of which asn1ct writes the same value otherwise, or another value; a leaf that tshark doesn't show.
NOT_ENCODED, REFUSED, OCTETS, VALUE = "not encoded", "refused", "octets", "value"
REPLY, MISREAD, HERE_ALONE, THERE_ALONE = "reply", "misread", "here alone", "asn1ct alone"
SPELLED, CHANGED, SHOWN = "spelled", "changed", "tshark"
# Those of octets that weren't changed.
UNCHANGED = (NOT_ENCODED, REFUSED, OCTETS, VALUE)
READ_BY = {(True, True): "both", (True, False): HERE_ALONE, (False, True): THERE_ALONE, (False, False): "neither"}
FIGURES = ("types", WHOLE, "octets", "messages", FRONT, BIT, LONGER, *READ_BY.values(), "leaves", "by value")


@dataclass(frozen=True)
class Difference:
    """A difference: of what protocol, variant, kind and type, and what there is on both sides."""
    protocol: str
    variant: str
    what: str
    type: str
    text: str


@dataclass(frozen=True)
class Given:
    """What the program is given: octets of a type in a variant, and what they are."""
    variant: str
    known: object
    octets: bytes
    what: str
    base: str           # the encoding that was changed
    which: int = 0      # the octet or the bit
    row: tuple = None   # of an encoding of asn1ct: the value, and its term

    @property
    def line(self):
        return f"{self.variant} {self.known.asked} {self.octets.hex()}{' show' if self.is_shown else ''}"

    @property
    def is_shown(self):
        return self.what == WHOLE and self.known.is_shown

    @property
    def key(self):
        return self.variant, self.known, self.base

    @property
    def room(self):
        """How long the reply may be, and more."""
        return (40 if self.is_shown else 4) * len(self.octets) + 200


class Judge:
    """What was compared of a protocol in each variant, and the differences."""

    def __init__(self, protocol, asn1ct):
        self.protocol, self.asn1ct, self.refusals = protocol, asn1ct, refusals()
        self.figures = {variant: collections.Counter() for variant in protocol.variants}
        self.messages = [*messages_of(protocol)]
        self.differences, self.misread = [], set()

    def differ(self, variant, what, type_name, text):
        self.differences.append(Difference(self.protocol.name, variant, what, type_name, text))

    def given(self, count, changed_ones):
        """Gives what the program is given: encodings of asn1ct, and the first of each type and the messages changed; last what
        asn1ct makes of these, where that is another."""
        bases = []
        for variant in self.protocol.variants:
            taken = collections.Counter()
            for one in self.encoded(variant, count):
                yield one
                taken[one.known] += 1
                if taken[one.known] <= changed_ones:
                    bases.append(one)
                    yield from self.changed(one, END_ALONE)
        for known, message in self.messages:
            self.figures[message.variant]["messages"] += 1
            one = Given(message.variant, known, bytes.fromhex(message.octets), "message", message.octets)
            bases.append(one)
            yield from self.changed(one, EACH)
        for variant in self.protocol.variants:
            yield from self.again(variant, [one for one in bases if one.variant == variant])

    def again(self, variant, bases):
        """Gives what asn1ct makes of encodings that it read, where that is another."""
        answers = self.asn1ct.recoded(variant, [(one.known.there, one.octets) for one in bases])
        for one, theirs in zip(bases, answers):
            if theirs.startswith("!"):
                self.tell_misread(one, theirs)
            elif theirs != one.base:
                yield Given(variant, one.known, bytes.fromhex(theirs), AGAIN, one.base)

    def tell_misread(self, one, theirs):
        """Tells of an encoding that asn1ct doesn't read as its value, so that its other answers say nothing either."""
        self.misread.add(one.key)
        self.differ(one.variant, MISREAD, one.known.name, f"{one.base}: {theirs} of asn1ct")

    def encoded(self, variant, count):
        """Gives what asn1ct encodes of values of the protocol's types."""
        rows = [(known, *row) for known in self.protocol.known for row in self.protocol.values(known, count)]
        self.figures[variant]["types"] = len({known for known, _, _ in rows})
        answers = self.asn1ct.encoded(variant, [(known.there, term) for known, _, term in rows])
        for (known, value, term), said in zip(rows, answers):
            if said.startswith("!"):
                self.differ(variant, NOT_ENCODED, known.name, f"{term[:200]}: {said}")
            else:
                yield Given(variant, known, bytes.fromhex(said), WHOLE, said, row=(value, term))

    @staticmethod
    def changed(one, whole):
        for what, which, octets in changed(one.octets, whole):
            yield Given(one.variant, one.known, octets, what, one.base, which)

    def judge(self, every, program):
        """Judges the program's replies, and what asn1ct makes of octets with a bit turned. What is made of an encoding that is
        another here is left out."""
        turned, others = {variant: [] for variant in self.protocol.variants}, set()
        for one, reply in zip(every, program.replies(*asked_of(every))):
            if one.what == WHOLE and not self.is_same(one, reply):
                others.add(one.key)
            elif one.what == AGAIN and reply != one.base and one.key not in others:
                self.tell_misread(one, one.octets.hex())
            elif one.what not in (WHOLE, AGAIN) and one.key not in others:
                self.judge_changed(one, reply)
                turned[one.variant] += [(one, reply)] * (one.what == BIT)
        self.compare_otherwise(program, [it for row in turned.items() for it in self.compare_turned(*row)])

    def is_same(self, one, reply):
        """Tells whether the octets that are written here of what asn1ct wrote, and the value that is shown, are its."""
        (value, term), (ours, _, shown) = one.row, reply.partition(" ")
        forms = in_words(one.known.type)
        self.figures[one.variant][WHOLE] += 1
        self.figures[one.variant]["octets"] += len(one.octets)
        expected = one.known.shown(self.protocol.shown, value)
        if ours == "!":
            self.differ(one.variant, REFUSED, one.known.name, f"{one.base}: {reply} here: {term}{forms}")
        elif ours != one.base:
            self.differ(one.variant, OCTETS, one.known.name, f"{ours} here, {one.base} of asn1ct: {term}{forms}")
        elif shown != expected:
            self.differ(one.variant, VALUE, one.known.name, f"{one.base}: {shown} here, and not {expected}{forms}")
        return ours == one.base and shown == expected

    def judge_changed(self, one, reply):
        self.figures[one.variant][one.what] += 1
        if not is_right(one.what, reply, self.refusals):
            self.differ(one.variant, REPLY, one.known.name, f"{one.base}, {one.what} {one.which}: {reply}")

    def compare_turned(self, variant, found):
        """Compares what asn1ct makes of octets with a bit turned, and gives what both read and write otherwise."""
        found = [it for it in found if it[0].key not in self.misread]
        answers = self.asn1ct.recoded(variant, [(one.known.there, one.octets) for one, _ in found])
        for (one, ours), theirs in zip(found, answers):
            read_by = READ_BY[ours[0] != "!", theirs[0] != "!"]
            self.figures[variant][read_by] += 1
            if read_by in (HERE_ALONE, THERE_ALONE):
                self.differ(variant, read_by, one.known.name, two_answers(one, ours, theirs))
            elif read_by == "both" and ours != theirs:
                yield one, ours, theirs

    def compare_otherwise(self, program, found):
        """Tells of octets that asn1ct writes otherwise whether these spell the same value here."""
        lines = [f"{one.variant} {one.known.number} {theirs}" for one, _, theirs in found]
        for (one, ours, theirs), reply in zip(found, program.replies(lines, [4 * len(line) + 200 for line in lines])):
            what = SPELLED if reply.split()[0] == ours else CHANGED
            self.differ(one.variant, what, one.known.name, two_answers(one, ours, theirs))

    def dissect(self, folder):
        """Has the messages dissected by tshark."""
        found = [(known, message) for known, message in self.messages if dissect.dissector_of(message)]
        for (known, message), (leaves, by_value, lines) in zip(found, dissect.judged(folder, [it for _, it in found])):
            self.figures[message.variant]["leaves"] += leaves
            self.figures[message.variant]["by value"] += by_value
            for line in lines:
                self.differ(message.variant, SHOWN, known.name, f"{message.name}: {line}")


@dataclass(frozen=True)
class Made:
    """What was made of a protocol, for which asn1ct was asked: the folder in which it is kept, its judge, all that the
    program is given, and what its crates need, where these were written there."""
    folder: str
    judge: Judge
    every: list
    crates: dict = None

    @property
    def asked(self):
        return asked_of(self.every)


def asked_of(every):
    """Returns the lines that the program is given, and how long their replies may be."""
    return [it.line for it in every], [it.room for it in every]


def two_answers(one, ours, theirs):
    return f"{one.octets.hex()} of {one.base}: {ours} here, {theirs} of asn1ct"
