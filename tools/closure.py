"""What the main theorem's statement closes over: the definitions that the clauses of its calls need, at any remove."""
from __future__ import annotations

import fnmatch
import os
import re
from dataclasses import dataclass, field

from antt import Definition, Module, Place, clauses_of, is_of_specs, module_of, origin_of, path_of
from repository import TOP, Failure, folder_of

CALLS = ["crates/rasn_per/src/uper.rt", "crates/rasn_per/src/aper.rt"]
SPECS_OF_CALLS = "Rattle.rasn_per.specs."
PRIVATE = ["per_bits", "per_read*", "per_write*", "per_enc", "per_de", "per_decoding"]


def crate_of(path: str) -> str:
    return path.split("/")[1]


def is_private(crate: str) -> bool:
    return any(fnmatch.fnmatch(crate, it) for it in PRIVATE)


@dataclass
class Statement:
    """Files in the order in which they are read, each with its lines that are reached, and types of the code."""

    files: dict[str, int]
    types: list[str]

    def lines(self) -> int:
        return sum(self.files.values())

    def crates(self) -> set[str]:
        return {crate_of(it) for it in self.files}

    def private(self) -> dict[str, int]:
        """Returns the files of the private crates of reader, writer and bits, with their lines."""
        return {it: lines for it, lines in self.files.items() if is_private(crate_of(it))}


@dataclass
class Walk:
    """What was reached: definitions, types of the code, and the modules that each module needs, in their order."""

    # the name of a field that is left out of the records in the crate of the calls
    without: str | None
    left_out: int = 0
    definitions: dict[Place, Definition] = field(default_factory=dict)
    types: set[str] = field(default_factory=set)
    modules: dict[str, dict[str, None]] = field(default_factory=dict)

    def reach(self, place: Place) -> list[Definition]:
        """Returns the definition at a place, where it wasn't reached before."""
        found = module_of(place.module).definitions[place.name]
        if found.place in self.definitions:
            return []
        if self.without and place.module.startswith(SPECS_OF_CALLS) and found.kind == "record":
            less = found.without(self.without)
            self.left_out += len(less.lines) < len(found.lines)
            found = less
        self.definitions[found.place] = found
        return [found]

    def step(self, module: Module, definition: Definition) -> list[Definition]:
        """Returns the definitions that this one is the first to need."""
        found, needed = [], self.modules.setdefault(module.name, {})
        for place in map(origin_of, module.needs(definition.text)):
            if ".specs.declared." in place.module:
                self.types.add(type_of(place))
            elif is_of_specs(place.module):
                if place.module != module.name:
                    needed[place.module] = None
                found += self.reach(place)
        return found

    def from_clauses(self, paths: list[str]) -> None:
        """Goes from the clauses in files of src to all that they need."""
        pending = []
        for module, clauses in map(clauses_of, paths):
            for clause in clauses:
                pending += self.step(module, clause)
        while pending:
            definition = pending.pop()
            pending += self.step(module_of(definition.place.module), definition)
        if self.without and not self.left_out:
            raise Failure(f"no record of the theorem has a field {self.without}")

    def in_order(self, name: str, found: dict[str, None]) -> dict[str, None]:
        """Returns what was found before, then the modules that this one needs, and then itself."""
        for other in self.modules[name]:
            if other not in found:
                self.in_order(other, found)
        found[name] = None
        return found


def type_of(place: Place) -> str:
    """Returns the struct or enum of the code that a name of a module `declared` is of, with its crate and module."""
    _, crate, _, _, *parts = [*place.module.split("."), place.name]
    modules = [it for it in parts if it[0].islower()]
    name = next(it for it in parts if it[0].isupper() and not re.match("The[A-Z]", it))
    at = f"{folder_of(crate)}/src/{'/'.join(modules) or 'lib'}.rt"
    if not os.path.isfile(at):
        raise Failure(f"there is no {os.path.relpath(at, TOP)}")
    with open(at, encoding="utf-8") as it:
        if not re.search(rf"^pub (?:struct|enum) {name}\b", it.read(), re.M):
            raise Failure(f"{os.path.relpath(at, TOP)} has no {name}")
    return "::".join([crate, *modules, name])


def statement_of(without: str | None = None) -> Statement:
    """Returns what the theorem's statement closes over, where its records have no field of this name."""
    walk, order = Walk(without), {}
    walk.from_clauses(CALLS)
    for path in CALLS:
        walk.in_order(path, order)
    lines = dict.fromkeys((it for it in order if it not in CALLS), 0)
    for place, definition in walk.definitions.items():
        lines[place.module] += len(definition.lines)
    return Statement({path_of(name): count for name, count in lines.items()}, sorted(walk.types))
