"""What is made of an encoding to try how it is refused, and what may be said of that."""
import re

from repository import TOP, Failure

FRONT, BIT, LONGER = "front", "bit", "longer"
# An encoding of more octets is tried at its ends alone, which have so many.
END_ALONE, END = 64, 16
# The pages of the kinds of refusals, and those that no octets have, whatever they are, by a type that keeps the laws.
NAMES = ("ReadingNames", "WritingNames")
OF_THE_CALL = {
    "AlreadyFailed",
    "ExceedsMaxLength",
    "MissingTag",
    "OutOfMemory",
    "OutOfTurn",
    "RealNotSupported",
    "TooManyAdditions",
    "TypeNotExtensible",
    "VariantNotInChoice",
    "WrongKind",
}


def refusals():
    """Returns the replies that refuse octets or the value that they spell, by the kinds' names."""
    names = set()
    for page in NAMES:
        with open(f"{TOP}/crates/per_core/specs/{page}.antt", encoding="utf-8") as it:
            names |= set(re.findall(r'^name_of .* = codes "(\w+)"$', it.read(), re.MULTILINE))
    if not names > OF_THE_CALL:
        raise Failure(f"the names of kinds aren't where they were: {sorted(OF_THE_CALL - names)} are lacking")
    return {f"! {name}" for name in names - OF_THE_CALL}


def near_the_ends(count, whole):
    """Gives the first and the last of so many places, or all where they are at most `whole`."""
    return range(count) if count <= whole else [*range(END), *range(count - END, count)]


def changed(octets, whole=END_ALONE):
    """Gives what is tried of an encoding: what it is, which one, and its octets. One of more octets than `whole` is tried at
    its ends alone."""
    for count in near_the_ends(len(octets), whole):
        yield FRONT, count, octets[:count]
    for place in near_the_ends(len(octets), whole):
        for bit in range(8):
            turned = octets[place] ^ (0x80 >> bit)
            yield BIT, 8 * place + bit, octets[:place] + bytes([turned]) + octets[place + 1:]
    yield LONGER, 1, octets + b"\0"


def is_right(what, reply, refusals):
    """Tells whether a reply is one that such octets have."""
    if what == FRONT:
        return reply == "! Incomplete"
    if what == LONGER:
        return reply == "! UnexpectedExtraData"
    return reply in refusals or re.fullmatch("(?:[0-9a-f]{2})+", reply)
