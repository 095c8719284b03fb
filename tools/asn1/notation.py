"""Reads ASN.1 modules: Erlang/OTP's compiler parses their text (front.escript), which is given on as JSON."""
import json
import os
import re
import shutil
import subprocess

from refusals import Refused, all_of, placed  # noqa: F401 (others take Refused and placed from here)

HERE = os.path.dirname(os.path.realpath(__file__))
HEADER = re.compile(r"^\s*([A-Z][A-Za-z0-9-]*)\s*(?:\{[^{}]*\}\s*)?DEFINITIONS\b", re.M)
IMPORTS = re.compile(r"\bIMPORTS\b([^;]*);")
# What front.escript ends with where there is no asn1ct.
NO_COMPILER = 3
# What asn1ct's check of a module may take: seconds of a processor, and words of memory (1.2 GB).
SECONDS, WORDS = 60, 150_000_000
# What it says of a line.
COMPLAINT = re.compile(r"^(?:.*/)?([A-Z][\w-]*)(?:\.asn1)?:(\d+): (.*)$")
# The type that asn1ct doesn't know, as a definition that it takes: under the tag that X.680 gives to it.
DATE, DATE_TAG = "DATE ::= [UNIVERSAL 31] IMPLICIT NULL ", ("UNIVERSAL", 31)


def plain(name, text):
    """Returns the text of a module with what asn1ct's tokens don't take put otherwise: characters that aren't ASCII, and a
    sign that stands apart from its number (X.680 12.1 allows both, in comments and between lexical items)."""
    for line, found in enumerate(without_comments(text).split("\n"), 1):
        if re.search(r'"[^"]*[^\x00-\x7f]', found):
            with placed(name, line):
                raise Refused("a text with a character that isn't ASCII isn't taken")
    text = text.replace("\u00a0", " ").replace("\t", "    ")
    text = "".join(it if ord(it) < 128 else "?" for it in text)
    return with_date(re.sub(r"([(.{,|]\s*)-\s+(\d)", r"\1-\2", text))


def with_date(text):
    """Returns the text of a module with a definition of DATE before its end, where it names DATE and doesn't define it."""
    bare = without_comments(text)
    ends = [*re.finditer(r"^\s*END\b|\bEND\s*\Z", bare, re.M)]
    is_named = re.search(r"(?<![\w-])DATE(?![\w-])", re.sub(r'"[^"\n]*"', "", bare))
    if not is_named or not ends or re.search(r"^\s*DATE\s*::=", bare, re.M):
        return text
    place = bare.index("END", ends[-1].start())
    return f"{text[:place]}{DATE}{text[place:]}"


def without_comments(text):
    """Returns the text with blanks in place of comments, of the same length."""

    def blanked(found):
        return found[0] if found[1] else re.sub(r"[^\n]", " ", found[0])

    return re.sub(r'("[^"\n]*")|/\*.*?\*/|--.*?(?:--|$)', blanked, text, flags=re.S | re.M)


def modules_of(text):
    """Gives each module of a file: its name and its text, on the lines on which it stands in the file."""
    starts = [(found.start(1), found[1]) for found in HEADER.finditer(without_comments(text))]
    for (start, name), (end, _) in zip(starts, [*starts[1:], (len(text), None)]):
        yield name, "\n" * text.count("\n", 0, start) + text[start:end]


def read_modules(paths):
    """Returns the text of each module of these files, by its name."""
    found, files = {}, {}
    for path in paths:
        try:
            with open(path, encoding="utf-8", errors="replace") as file:
                modules = [*modules_of(file.read())]
        except OSError as error:
            raise Refused(f"{path} can't be read: {error.strerror}") from error
        if not modules:
            raise Refused(f"{path} has no module")
        for name, text in modules:
            if name in found:
                raise Refused(f"the module {name} stands in {files[name]} and in {path}")
            found[name], files[name] = plain(name, text), path
    return found


def needed(modules, wanted):
    """Returns of the modules those that are wanted, with those from which they import, one after another."""
    found, left, lacking = set(), [*wanted], []
    while left:
        name = left.pop()
        if name in modules and name not in found:
            found.add(name)
            for line, other in imports_of(modules[name]):
                left.append(other)
                lacking += [(name, line, other)] * (other not in modules)
    if lacking:
        raise all_of(refusal(name, line, f"the imports need the module {other}, which no file has") for name, line, other in lacking)
    return {name: text for name, text in modules.items() if name in found}


def imports_of(text):
    """Gives the line and the module of each part of a module's imports."""
    bare = without_comments(text)
    imports = IMPORTS.search(bare)
    for found in re.finditer(r"\bFROM\s+([A-Z][A-Za-z0-9-]*)", imports[1]) if imports else []:
        yield bare.count("\n", 0, imports.start(1) + found.start()) + 1, found[1]


def refusal(module, line, reason):
    """Returns a refusal of a place."""
    why = Refused(reason)
    why.place = f"{module}, line {line}" if line else module
    return why


def read(modules, folder):
    """Returns what the front end makes of these modules, by their names, and what asn1ct refuses, each with its place. It
    works in a folder that is empty. What can't be parsed is refused."""
    if not shutil.which("escript"):
        raise Refused("there is no `escript` on the path: Debian's packages erlang-base and erlang-asn1 are missing")
    for name, text in modules.items():
        with open(f"{folder}/{name}.asn1", "w", encoding="ascii") as file:
            file.write(text)
    words = ["escript", f"{HERE}/front.escript", folder, "front.json", str(SECONDS), str(WORDS), *modules]
    ran = subprocess.run(words, stdout=subprocess.PIPE, stderr=subprocess.STDOUT, text=True, check=False)
    if ran.returncode == NO_COMPILER:
        raise Refused("Erlang has no asn1ct: Debian's package erlang-asn1 is missing")
    if ran.returncode:
        raise Refused(f"asn1ct ends without an answer:\n{ran.stdout.strip()[-2000:]}")
    with open(f"{folder}/front.json", encoding="ascii") as file:
        front = json.load(file)
    complaints = complaints_of(ran.stdout, modules)
    if any(name not in front for name in modules):
        raise all_of(complaints)
    silent = [name for name in modules if "checked" not in front[name]]
    return front, complaints or [refusal(name, 0, "asn1ct gives no answer") for name in silent]


def complaints_of(said, modules):
    """Returns what asn1ct refuses of these modules, by what it said: each line once."""
    found = dict.fromkeys(match.groups() for match in map(COMPLAINT.match, said.splitlines()) if match)
    return [refusal(name, int(line), f"asn1ct: {text}") for name, line, text in found if name in modules and "Warning" not in text]


def parsed(modules, folder):
    """Returns what the front end makes of these modules, by their names; refused where asn1ct refuses one."""
    front, complaints = read(modules, folder)
    if complaints:
        raise all_of(complaints)
    return front


def kind(node):
    """Returns the name of a record or of a tuple's head, or the atom itself."""
    if isinstance(node, str):
        return node
    if isinstance(node, dict):
        if "_" in node:
            return node["_"]
        if node.get("t") and isinstance(node["t"][0], str):
            return node["t"][0]
    return None


def parts(node):
    """Returns what stands behind the head of a tuple."""
    return node["t"][1:] if isinstance(node, dict) and "t" in node else []


def spelled(node):
    """Returns a part of a module in words, for what is said of it."""
    if isinstance(node, (int, str)):
        return str(node)
    if isinstance(node, dict) and node.get("_", "").startswith("External"):
        return node.get("type") or node.get("value")
    if isinstance(node, list) and node and all(isinstance(it, int) for it in node):
        return f'"{"".join(map(chr, node))}"'
    return SPELLED.get(kind(node), "what stands here")


SPELLED = {
    "ValueFromObject": "a field of an object", "TypeFromObject": "the type of a field of an object", "pt": "a type with parameters",
    "bstring": "a string of bits", "hstring": "a string of octets", "WITH COMPONENTS": "WITH COMPONENTS",
    "WITH COMPONENT": "WITH COMPONENT", "PermittedAlphabet": "FROM", "SizeConstraint": "SIZE", "ValueRange": "a range",
    "SingleValue": "a value", "pattern": "PATTERN", "objectset": "an object set", "valueset": "a value set",
    "InstanceOfType": "INSTANCE OF", "SelectionType": "a selection type", "contentsconstraint": "CONTAINING",
    "simpletable": "a table constraint", "componentrelation": "a table constraint", "Object": "an object", "ObjectSet": "an object set",
}
