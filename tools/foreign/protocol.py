"""The types of a protocol, as the compiler of pages knows them."""
import argparse
import os
import re
import subprocess
import tempfile
from dataclasses import dataclass

from kept import read
from notation import kind, parsed
from program import VARIANTS
from repository import TOP, Failure, folder_of
from resolve import Modules, Use
from terms import Shown, values_of
from values import Chooser
from wanted import crate_word, modules_wanted, wanted_items

ASN1 = f"{TOP}/tools/asn1"
# The sample with a type of each kind, which is no protocol of a standard.
SAMPLE = "kinds"
SAMPLE_TYPES = ",".join(f"Kinds.{name}" for name in ("Message", "Beside", "Serial", "Based", "Defaults"))


def ran(words):
    """Runs a command and returns what it prints."""
    done = subprocess.run(words, capture_output=True, text=True, check=False)
    if done.returncode:
        raise Failure(f"{' '.join(words)[:200]}: status {done.returncode}\n{(done.stdout + done.stderr)[-2000:]}")
    return done.stdout


def calls(name, fetched):
    """Returns the words of each call of the compiler for a protocol, by its name. A protocol with several, one for each
    release, has them by the names of their crates."""
    if name == SAMPLE:
        return {name: ["--types", SAMPLE_TYPES, f"{ASN1}/samples/Kinds.asn"]}
    words = ran([f"{ASN1}/protocols", "--words", fetched, name]).splitlines()
    starts = [place for place, word in enumerate(words) if word == "--types"]
    found = [words[start:end] for start, end in zip(starts, [*starts[1:], None])]
    if len(found) == 1:
        return {name: found[0]}
    return {crate_word(given(call).crate[0])[2]: call for call in found}


def given(words):
    """Returns what the words of a call of the compiler give it."""
    parser = argparse.ArgumentParser()
    parser.add_argument("--types")
    parser.add_argument("--crate", action="append", default=[])
    parser.add_argument("--sort", action="store_true")
    parser.add_argument("files", nargs="+")
    return parser.parse_args(words)


def references(node):
    """Gives the module and the name of each definition that a node refers to."""
    if isinstance(node, list):
        for one in node:
            yield from references(one)
    elif isinstance(node, dict):
        if node.get("_") in ("Externaltypereference", "Externalvaluereference"):
            yield node["module"], node.get("type") or node["value"]
        for one in node.values():
            yield from references(one)


@dataclass(frozen=True, eq=False)
class Known:
    """A type that both know: by its number and its path here, and by its module and name there."""
    number: int
    item: object
    path: str
    is_limited: bool
    # The program shows its values.
    is_shown = True

    @property
    def there(self):
        return self.item.key

    @property
    def type(self):
        return self.item.type

    @property
    def asked(self):
        """What the program calls it."""
        return str(self.number)

    @property
    def name(self):
        return self.item.key[1]

    def shown(self, shown, value):
        """Returns the text of a value of it."""
        item = self.item
        if item.has_page:
            return shown.of_page(item, value)
        if self.is_limited:
            return shown.limited(item.type, value)
        return shown.of_use(item.target, value) if item.target else shown.text(item.type, value)


class Protocol:
    """A protocol, or a release of it: the items of a call of the compiler, and the modules that these stand on. `other` has
    the texts that asn1ct gets in place of these; `first` is the number of the first type in the program."""

    def __init__(self, name, words, other=None, first=0):
        self.name, self.words, self.first, self.variants = name, words, first, VARIANTS
        call = given(words)
        texts = modules_wanted(call.files, call.types, call.crate)
        with tempfile.TemporaryDirectory() as room:
            self.modules = Modules(parsed(texts, room), sorts=call.sort)
        self.items = wanted_items(self.modules, call.types, call.crate)
        self.shown = Shown(self.items)
        needed = self.needed()
        self.texts = other or {name: self.without_others(name, text, needed) for name, text in texts.items()}
        self.identifiers = frozenset(self.taken_identifiers())
        self.known = [*self.known_types()]

    def taken_identifiers(self):
        """Gives the identifiers of the objects of all sets."""
        for module, found in self.modules.front.items():
            for name, one in found["checked"].items():
                if kind(one) == "typedef" and kind(one["typespec"]) == "ObjectSet":
                    yield from (identifier for identifier, _ in self.modules.rows(module, name))

    def needed(self):
        """Returns the definitions that the types and imports stand on, object sets and what these name among them."""
        found, new = set(), {it.key for it in self.items.order if "/" not in it.key[1]}
        new |= {(self.modules.home(*it), it[1]) for it in self.modules.imported if self.is_read(*it)}
        while new:
            found |= new
            named = {it for key in new for it in references(self.modules.defined[key])}
            new = {(self.modules.home(*it), it[1]) for it in named if self.is_read(*it)} - found
        return found

    def is_read(self, module, name):
        """Tells whether what a module calls by a name is defined in a module that was read."""
        while (module, name) in self.modules.imported:
            module = self.modules.imported[module, name]
        return (module, name) in self.modules.defined

    def without_others(self, module, text, needed):
        """Returns a module with blank lines in place of the definitions that aren't needed, as asn1ct takes long for them."""
        lines = text.splitlines()
        starts = sorted((one["pos"], name) for (home, name), one in self.modules.defined.items() if home == module)
        last = max(place for place, line in enumerate(lines, 1) if re.match(r"\s*END\b", line)) if starts else 0
        for (start, name), (end, _) in zip(starts, [*starts[1:], (last, "")]):
            if (module, name) not in needed and [it for it, _ in starts].count(start) == 1:
                lines[start - 1 : end - 1] = [""] * (end - start)
        return "\n".join([*lines, ""])

    def write_crates(self, top):
        """Has the pages of a protocol that isn't kept in a folder of crates. Returns what each of these crates needs."""
        if all(os.path.isdir(folder_of(it.crate)) for it in self.items.order):
            return {}
        os.makedirs(top, exist_ok=True)
        ran([f"{ASN1}/compile", "--out", top, *self.words])
        lines = [line.partition(":") for line in read(f"{top}/crates.txt").splitlines()]
        own = {it.crate for it in self.items.order}
        return {name.strip(): needed.split() for name, _, needed in lines if name.strip() in own}

    def known_types(self):
        """Gives the types that both know. asn1ct has no name for one that is written within another, or has parameters; and a
        name here may be without its constraints. All these stand in others."""
        number = self.first
        for item in self.items.order:
            is_limited = not item.has_page and item.is_limited and bool(item.type.limits)
            is_whole = item.has_page or is_limited or not item.type.limits
            is_named = "/" not in item.key[1] and self.modules.defined[item.key]["_"] == "typedef"
            if is_whole and is_named:
                name = self.items.limited_names(item)[0] if is_limited else item.rust
                yield Known(number, item, f"{item.crate}::{item.file}::{name}", is_limited)
                number += 1

    def values(self, known, count):
        """Returns values of a type, each with its term."""

        def chooser(manner, number):
            return Chooser(manner, f"{known.there} {number}", self.identifiers)

        return values_of(Use(known.item.type, known.item.key), count, chooser)
