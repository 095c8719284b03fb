"""Trials of schema files, for tools/asn1/test: what they say to the letter, what they take that a page doesn't, what is
refused, and that lines that break a rule of docs/SCHEMA-FILE.md are found."""
import functools
import os
import re
import subprocess

from notation import HERE
from schema_rules import File

SAMPLES = ("Example", "Taken", "Tagged", "Faults")
# Of Taken.asn, the names that no other type names.
PDUS = "Wrapped Defaults Presence Bare Attribute Any Strings".split()
# Of Taken.asn, what the object set Parts stands for.
OBJECTS = ["Fields", "Nest"]
# Definitions of a module `Bad`, a line each, and what is said of the line; nothing is said of others.
REFUSED = [
    ("A ::= SEQUENCE { a REAL }", "A.a is of the type REAL, which a schema file doesn't have"),
    ("B ::= SEQUENCE OF RELATIVE-OID", "B.Item is of the type RELATIVE-OID, which a schema file doesn't have"),
    ("C ::= SEQUENCE { a A }", ""),
    ("D ::= SEQUENCE { a NULL, inner D OPTIONAL }", ""),
    ("E ::= SEQUENCE { a SEQUENCE { x BOOLEAN } DEFAULT { } }", "a value has no x"),
    ("K ::= CLASS { &id INTEGER UNIQUE, &Type } WITH SYNTAX { &id IS &Type }", ""),
    ("Ks K ::= { { 1 IS NULL } | { 1 IS BOOLEAN } }",
     "asn1ct: object set with a UNIQUE field value of '1' is used more than once"),
    ("F ::= SEQUENCE { i K.&id ({ Ks }), t K.&Type ({ Ks } { @i }) }", "two objects of a set have the same id, int 1"),
]
# Lines of Example.schema, changed, and what the rules say of them.
BROKEN = [
    ("per_schema 1 1 6 2", "per_schema 1 1 7 2", "1: it doesn't say what follows"),
    ("integer 0 65535 -", "integer 7 3 -", "4: 7 is above 3"),
    ("integer 0 65535 -", "integer 0 65535", "4: a word lacks"),
    ("integer 0 65535 -", "integer 0  65535 -", "4: a word lacks"),
    ("integer 0 65535 -", "integer 00 65535 -", "4: 00 has no place here"),
    ("ia5_string 1 20 ... -", "ia5_string 1 20 ... 2 65 70 71 80", "5: ranges of an alphabet don't ascend"),
    ("note c1 o 2", "id c1 o 2", "3: names that are the same"),
    ("note c1 o 2", "note c1 o 6", "3: there is no place 6"),
    ("d 3 list 0", "d 3 true", "3: true is no value of sequence_of"),
    ("[[ c3 4", "[[ c3 5", "3: 5 is no group"),
    ("root Example Messages 3", "root Example Message 3", "10: Message is named twice"),
    ("sequence_of 0 0 - -", "list_of 0 0 - -", "6: there is no type list_of"),
    ("kind c0 r 5", "kind c0 r 4", "7: it needs itself"),
]


def text_of(path):
    with open(path, encoding="utf-8") as file:
        return file.read()


def written(top, words):
    """Returns the text of the schema file that a call writes, and what it says where it writes none."""
    path = f"{top}/made.schema"
    ran = subprocess.run([f"{HERE}/compile", "--schema", path, *words], capture_output=True, text=True, check=False)
    if ran.returncode:
        return "", ran.stderr
    text = text_of(path)
    os.remove(path)
    return text, ""


def trials():
    """Gives each trial: of a folder of its own it gives what is wrong."""
    yield from (functools.partial(sample, name) for name in SAMPLES)
    for words, expected in ((["--pdus"], PDUS), (["--types", "Taken.Parts"], OBJECTS)):
        yield functools.partial(roots, words, expected)
    yield from (past_pages, refusals, broken)


def sample(name, top):
    """Gives what is wrong with the schema file of a sample."""
    text, said = written(top, ["--all", f"{HERE}/samples/{name}.asn"])
    yield text != text_of(f"{HERE}/samples/{name}.schema") and f"{name}.asn has another schema file: {said}"


def broken(_):
    """Gives the lines that break a rule and aren't found."""
    for line, other, fault in BROKEN:
        found = File(text_of(f"{HERE}/samples/Example.schema").replace(line, other)).faults
        yield fault not in found and f"the rules say of {other}: {found}"


def roots(words, expected, top):
    """Gives what is wrong with the names that a schema file has by --pdus and by --types."""
    text, said = written(top, [*words, "--release", "Taken=7.1", f"{HERE}/samples/Taken.asn"])
    found = re.findall(r"^root Taken (\S+) ", text, re.M)
    yield sorted(found) != sorted(expected) and f"{words} of Taken.asn has {found}: {said}"
    yield "\nmodule Taken 7.1\n" not in text and f"{words} of Taken.asn doesn't say its release"


def past_pages(top):
    """Gives what is wrong with lists that are too long for a page."""
    items = ", ".join(f"i{number}" for number in range(300))
    parts = ", ".join(f"p{number} NULL" for number in range(100))
    text, said = compiled(top, "Long", [f"E ::= ENUMERATED {{ {items} }}", f"S ::= SEQUENCE {{ {parts} }}"])
    yield f"\nenumerated 300 - {items.replace(',', '')}\n" not in text and f"300 items aren't taken: {said}"
    yield "\nsequence 100 - p0 c0 r 2 " not in text and f"100 components aren't taken: {said}"


def compiled(top, name, lines):
    """Returns the same of a module of these lines."""
    with open(f"{top}/made.asn", "w", encoding="utf-8") as file:
        file.write("\n".join([f"{name} DEFINITIONS AUTOMATIC TAGS ::= BEGIN", *lines, "END", ""]))
    return written(top, ["--all", f"{top}/made.asn"])


def refusals(top):
    """Gives what is wrong with how types are refused: all at once, each once, and nothing is written."""
    text, said = compiled(top, "Bad", [line for line, _ in REFUSED])
    expected = [f"Bad, line {number}: {reason}" for number, (_, reason) in enumerate(REFUSED, 2) if reason]
    yield (text, said) != ("", "\n".join([f"asn1: {expected[0]}", *expected[1:], ""])) and f"Bad.asn is refused otherwise: {said}"
