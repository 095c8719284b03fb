"""samples/Faults.asn, and what asn1ct's reading of it has to be where the compiler's own is turned off."""
import os
import re
import subprocess
import sys
import tempfile
from dataclasses import dataclass

HERE = os.path.dirname(os.path.realpath(__file__))
PATH = f"{HERE}/samples/Faults.asn"
# What a comparison may not share with what it judges.
JUDGED = ("constraints", "definitions", "model", "ranges", "resolve", "spelling", "tags")
# The value, the size and the number of permitted characters of types, by asn1ct alone (X.691 10.3).
READINGS = {
    "MarkedLetters": (None, None, None), "MarkedBoth": (None, (1, 3, True), None), "GapBits": (None, (5, 5, False), None),
    "GapOctets": (None, (2, 2, False), None), "GapNumber": ((0, 30, False), None, None), "GapLeft": ((2, 3, False), None, None),
    "Excepted": ((0, 20, False), None, None), "AllExcepted": ((0, 6, False), None, None), "MarkedSize": (None, (2, 5, True), None),
    "MarkedList": (None, (2, 5, True), None), "Open": ((1, 11, False), None, None), "Within": ((0, 3, False), None, None),
    "Named": ((1, 5, False), None, None), "InSet": ((3, 9, False), None, None), "Exception": ((1, 4, True), None, None),
    "Unioned": ((70000, 2199023255552, False), None, None),
}
# Lines that its schema has, of types that were others or none.
WORDS = """
marked_letters = ia5_string any
    visible_string any ∷  -- code
gap_bits = bit_string (size 5 to 5)
gap_octets = octet_string (size 2 to 2)
gap_left = integer u8 (2 to 3)
excepted = integer u8 (0 to 20)
all_excepted = integer u8 (0 to 6)
marked_size = printable_string (extensible (size 2 to 5))
marked_list = sequence_of (extensible (size 2 to 5)) boolean
below = integer u8 (0 to 5)
past = integer u8 (0 to 5)
wide = extensible_enumerated 255 1
open_ = integer u8 (1 to 11)
within = integer u8 (0 to 3)
named = integer u8 (1 to 5)
    default (whole (pos 4)) (integer u8 (0 to 9)) ∷  -- a
in_set = integer u8 (3 to 9)
exception = integer big (extensible (1 to 4))
unioned = integer u64 (70000 to 2199023255552)
"""
# Of which a list alone has a name under their constraints.
NOT_WANTED = ("Small",)


@dataclass
class Limits:
    """Constraints that are given to the comparison in place of the compiler's."""
    value: tuple = None
    size: tuple = None
    alphabet: tuple = None


@dataclass
class Type:
    kind: str
    limits: Limits


# Readings that are wrong, as an earlier form of the compiler had them.
WRONG = {
    "MarkedLetters": Type("IA5String", Limits(alphabet=tuple(range(112, 117)))), "GapBits": Type("BIT STRING", Limits(size=(5, 8, False))),
    "GapOctets": Type("OCTET STRING", Limits(size=(2, 5, False))), "Excepted": Type("INTEGER", Limits(value=(0, 19, False))),
    "MarkedSize": Type("PrintableString", Limits(size=(2, 5, False))), "GapLeft": Type("INTEGER", Limits(value=(2, 10, False))),
}


def names():
    """Returns the types of the sample that are wanted, each with its module."""
    found, module = [], None
    with open(PATH, encoding="utf-8") as file:
        for line in file:
            module = line.split()[0] if "DEFINITIONS" in line else module
            name = re.match(r"([A-Z]\w*) (?:INTEGER )?::=", line)
            found += [f"{module}.{name[1]}"] if name and name[1] not in NOT_WANTED else []
    return found


def judged(folder):
    """Gives what is wrong with asn1ct's reading, in a process that has none of the compiler's own."""
    ran = subprocess.run([sys.executable, __file__, folder], capture_output=True, text=True, check=False)
    yield ran.returncode and f"the judgement ends: {ran.stderr[-500:]}"
    yield from ran.stdout.splitlines() or [False]


def main():
    sys.dont_write_bytecode = True
    from agree import Agreement, reading_of
    from notation import parsed, read_modules

    for name in set(JUDGED) & set(sys.modules):
        print(f"the comparison with asn1ct shares {name}.py with what it judges")
    with tempfile.TemporaryDirectory(dir=sys.argv[1]) as room:
        front = parsed(read_modules([PATH]), room)
    for name, expected in READINGS.items():
        _, value, size, alphabet = reading_of(front, "Faults", name)
        found = value, size, None if alphabet is None else len(alphabet)
        if found != expected:
            print(f"asn1ct's reading of {name} is {found}, and not {expected}")
    for name, wrong in WRONG.items():
        agreement = Agreement(front)
        agreement.limits(wrong, agreement.followed(front["Faults"]["checked"][name]["typespec"])[1], name)
        if not agreement.found:
            print(f"asn1ct's reading doesn't stop another of {name}")


if __name__ == "__main__":
    main()
