"""The rows of per_check, those of rows/ and of vectors/versions.tsv, as per_table answers them by a table of its types.

A row in the form `as` goes by one type, and what that writes by the other. One in the form `zero` is answered as one
without it: unless padding is refused, the value is the same.
"""
from collections import Counter
from dataclasses import dataclass, replace

from program import rows_of
from row_files import rows

# Rows that a table doesn't answer, and why.
LEFT_OUT = {
    "arguments": "they are about the words behind per_check, of which per_table has others",
    "padding": "they are refused in the form `zero`, which per_table hasn't, for padding that isn't zero",
    "no text": "octets that are no text are no request to per_table, where per_check says that the digits are bad",
    "empty groups": "the group of grp1 and grp2 has additions of its own, which ASN.1 hasn't, nor a schema file: there"
    " it is a component, which is written where it is there, but holds nothing (X.691 19.9 leaves out such a group)",
}
# What is written of grp1 and grp2 without the group.
WITHOUT_GROUP = ("00", "40")


@dataclass
class Line:
    """A line of a row: where that stands, its variant, the types that it goes by, its text, and the reply to it."""

    line: str
    variant: str
    types: list
    text: str
    wanted: str

    @property
    def type_name(self):
        return self.types[0]


def lines_of(octets):
    """Returns the lines of a text, one character for an octet."""
    return octets.decode("latin-1").removesuffix("\n").split("\n") if octets else []


def all_rows():
    """Gives where each row stands, its words, and its lines with the reply to each."""
    for place, words, octets, (printed, status, told) in rows():
        asked = lines_of(octets) if words[2:] == ["lines"] else octets.decode("latin-1").split("\n")[:1]
        yield place, words, [*zip(asked, lines_of(b"! " + told if status else printed), strict=True)]
    for number, (variant, type_name, other, text, wanted, _) in enumerate(rows_of("versions.tsv")):
        words = [variant, type_name, "as", other]
        yield f"vectors/versions.tsv, row {number}", words, [(text, wanted.replace("!", "! "))]


def why_left_out(words, lines):
    """Returns which of those that are left out a row is, if it is."""
    replies = [reply for _, reply in lines]
    if any(reply.startswith("! usage: ") for reply in replies):
        return "arguments"
    if words[2:] == ["zero"] and "! ParserFail" in replies:
        return "padding"
    if not all(text.isascii() for text, _ in lines):
        return "no text"
    emptied = any(reply in WITHOUT_GROUP and text not in WITHOUT_GROUP for text, reply in lines)
    if emptied and {"grp1", "grp2"} & {*words}:
        return "empty groups"
    return None


def rows_by_table():
    """Returns how many rows a table answers, their lines, and how many are left out, by the names of LEFT_OUT."""
    found, left_out = [], Counter()
    for place, words, lines in all_rows():
        why = why_left_out(words, lines)
        if why:
            left_out[why] += 1
        else:
            found.append([Line(place, words[0], words[1:2] + words[3:], *line) for line in lines])
    return len(found), [line for row in found for line in row], left_out


def replies_to(table, lines):
    """Returns a table's replies to lines. What it writes of one that goes by two types is given to it by the other."""
    replies = table.replies([(it, it.text) for it in lines])
    again = {
        place: replace(it, types=it.types[1:], text=reply)
        for place, (it, reply) in enumerate(zip(lines, replies))
        if it.types[1:] and not reply.startswith("!")
    }
    for place, reply in zip(again, table.replies([(it, it.text) for it in again.values()])):
        replies[place] = reply
    return replies
