"""Trials of octets, for tools/asn1/test: what the pages of samples/Faults.asn read and write again, by `rt try`. The
octets are worked out by X.691, and never by the program."""
import os
import sys
from dataclasses import dataclass

HERE = os.path.dirname(os.path.realpath(__file__))
TOOLS = os.path.dirname(HERE)
sys.path += [TOOLS, f"{TOOLS}/foreign"]
from ours import program_of, written_program

NEEDS = {crate: ["rasn_below"] for crate in ("faults", "faults_tagged")}
# Room for a reply of this size, in octets.
ROOM = 400
# Types by their paths, variants, octets, and what stands in the value that they are.
ROWS = """
faults::aliases::MarkedLetters uper 03c38b18 [97, 98, 99]
faults::aliases::MarkedLetters aper 03616263 [97, 98, 99]
faults::marked_inside::MarkedInside uper 03c38b18 [97, 98, 99]
faults::aliases::MarkedBoth uper 587163 [97, 98, 99]
faults::aliases::GapBits uper a0 octets: [160], len: 5
faults::aliases::GapOctets uper 0102 [1, 2]
faults::aliases::GapLeft uper 80 value: 3
faults::aliases::Excepted uper a0 value: 20
faults::aliases::AllExcepted uper c0 value: 6
faults::aliases::MarkedSize uper 187100 [97, 98]
faults::aliases::MarkedList uper 34 [true, false, true]
faults::set_of_records::SetOfRecords uper 01c08282c0 left: Some(true), right: OctetString { octets: [10, 11] }
faults::set_of_choices::SetOfChoices uper 6e [192]
faults::set_of_plain::SetOfPlain uper 0140 Flag(true)
faults::parameters::Parameters uper 01c0 d: [true], e: D
faults::aliases::Below uper a0 value: 5
faults::two_fields::TwoFields uper 80 one_two: true
faults::group::Group uper 40 group1: true, group1_x: None, group2: None
faults::limiteds::Limiteds uper 026d84 one: 3
faults::item_type::ItemType uper 00 Type_
faults::alternative_type::AlternativeType uper 50 Type_(5)
faults::wide::Wide uper 7f00 I254
faults::wide::Wide uper 80 Later
faults::aliases::Open uper a0 value: 11
faults::aliases::Within uper c0 value: 3
faults::aliases::Named uper 80 value: 5
faults::given::Given uper 00 a: 4
faults::given::Given uper a8 a: 5
faults::aliases::InSet uper c0 value: 9
faults::aliases::Exception uper 40 Primitive(3)
faults::retagged::Retagged uper f0 first: true, a: Some(()), b: 3
faults::aliases::Unioned uper 000000000000 value: 70000
faults::aliases::Unioned aper 0000 value: 70000
faults_tagged::tagged_group::TaggedGroup uper c0404000 a: true
faults_tagged::sorted::Sorted uper 60 First(2)
"""


@dataclass(frozen=True)
class Known:
    """A type of the program."""
    number: int
    path: str


def wrong(top):
    """Gives what is wrong with what the crates in a folder read and write again."""
    rows = [line.split(" ", 3) for line in ROWS.strip().splitlines()]
    known = {path: Known(number, path) for number, path in enumerate(sorted({row[0] for row in rows}))}
    program = program_of(written_program(top, [*known.values()], NEEDS))
    lines = [f"{variant} {known[path].number} {octets} show" for path, variant, octets, _ in rows]
    for (path, variant, octets, shown), reply in zip(rows, program.replies(lines, [ROOM] * len(lines))):
        written, _, value = reply.partition(" ")
        yield (written != octets or shown not in value) and f"{path} in {variant} of {octets}, {shown}: {reply}"
