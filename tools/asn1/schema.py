"""Writes the schema file of ASN.1 modules (docs/SCHEMA-FILE.md)."""
import re
import sys
import tempfile
from dataclasses import dataclass

from agree_schema import differences_of
from notation import Refused, kind, read, read_modules
from refusals import all_of
from schema_rules import File
from table import Place, Table
from wanted import modules_wanted, name_of
from whole import Whole

VERSION = "per_schema 1"
# Types that stand in one another nest calls.
MOST_CALLS = 30_000


@dataclass
class Root:
    module: str
    name: str
    place: Place


def definitions_of(modules, module):
    """Returns the names of a module's types without parameters, in the order of the text, less what stands for DATE."""
    found = [(name, node) for (home, name), node in modules.defined.items() if home == module and node["_"] == "typedef"]
    return [name for name, node in found if kind(node["typespec"]) == "type" and not modules.is_date(node["typespec"])]


def merged(lines):
    """Returns for each line the place of the first that says the same, what is named by places taken in."""
    same = None
    now = [*range(len(lines))]
    while now != same:
        same, first, now = now, {}, []
        for place, line in enumerate(lines):
            words = tuple(same[word.number] if isinstance(word, Place) else word for word in line)
            now.append(first.setdefault(words, place))
    return same


def reached(lines, starts):
    """Returns the places of lines that these name, and those that these name, and so on."""
    found, left = set(starts), [*starts]
    while left:
        more = {word.number for word in lines[left.pop()] if isinstance(word, Place)} - found
        found |= more
        left += more
    return found


def text_of(lines, roots, releases):
    """Returns the text of a schema file: of these lines those that the roots need, none twice."""
    same = merged(lines)
    kept = sorted({same[place] for place in reached(lines, [root.place.number for root in roots])})
    places = {place: number for number, place in enumerate(kept)}

    def spelled(word):
        return str(places[same[word.number]]) if isinstance(word, Place) else word

    head = [f"{VERSION} {len(releases)} {len(kept)} {len(roots)}"]
    head += [f"module {module} {release}" for module, release in releases.items()]
    types = [" ".join(map(spelled, lines[place])) for place in kept]
    return "\n".join([*head, *types, *(f"root {it.module} {it.name} {spelled(it.place)}" for it in roots), ""])


class Schema:
    """The table of the types that are wanted, by their roots, and the refusals of those that aren't taken. `complaints` are
    asn1ct's."""

    def __init__(self, front, complaints=()):
        sys.setrecursionlimit(MOST_CALLS)
        self.complaints = complaints
        self.modules = Whole(front)
        self.table, self.roots, self.refused = Table(self.modules), [], {}

    def add(self, module, name):
        try:
            self.roots.append(Root(module, name, self.table.definition(module, name)))
        except Refused as why:
            self.refused[module, name] = why

    def add_all(self, names):
        """Takes all types of modules."""
        for module in names:
            for name in definitions_of(self.modules, module):
                self.add(module, name)

    def keep_pdus(self):
        """Leaves the roots that no other type names."""
        self.roots = [root for root in self.roots if (root.module, root.name) not in self.table.named]

    def text(self, releases):
        """Returns the text of the schema file."""
        return text_of(self.table.lines, self.roots, {module: releases.get(module, "-") for module in self.modules.front})

    def judged(self):
        """Returns what came of the comparison with asn1ct; refused where anything is."""
        places = {why.place for why in self.refused.values()}
        refused = [*self.refused.values(), *(why for why in self.complaints if why.place not in places)]
        if refused:
            raise all_of(refused)
        agreement = differences_of(self.modules)
        if agreement.found:
            raise Refused("\n".join(["asn1ct reads the modules otherwise:", *agreement.found]))
        return agreement


def releases_of(words):
    """Returns the releases of modules by words MODULE=RELEASE."""
    for word in words:
        if not re.fullmatch(r"[A-Z][A-Za-z0-9-]*=\S+", word):
            raise Refused(f"--release {word} isn't written MODULE=RELEASE")
    return dict(word.split("=", 1) for word in words)


def wanted(given, room):
    """Returns the schema of what the words of a call want."""
    texts = modules_wanted(given.files, given.types, []) if given.types else read_modules(given.files)
    front, complaints = read(texts, room)
    schema = Schema(front, complaints)
    for word in given.types.split(",") if given.types else []:
        for home, one in schema.modules.types_of(*name_of(word)):
            schema.add(home, one)
    if not given.types:
        schema.add_all(front)
    if given.pdus:
        schema.keep_pdus()
    return schema


def written(given):
    """Writes the schema file that the words of a call want, and returns lines on what there is."""
    releases = releases_of(given.release)
    with tempfile.TemporaryDirectory() as room:
        schema = wanted(given, room)
    agreement, text = schema.judged(), schema.text(releases)
    faults = File(text).faults
    if faults:
        raise Refused("\n".join(["the schema file would break its rules, by its lines:", *faults]))
    with open(given.schema, "w", encoding="utf-8") as file:
        file.write(text)
    said = [f"{len(schema.roots)} names, {text.split()[3]} types; {agreement.compared} parts agree with asn1ct"]
    return "\n".join([*said, *(f"without asn1ct's judgement: {at}" for at in agreement.unjudged)])
