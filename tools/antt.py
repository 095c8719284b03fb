"""Definitions in files of specs/, and which others each needs: its own text decides that, not its file's imports."""
from __future__ import annotations

import os
import re
from dataclasses import dataclass, field
from functools import cache
from typing import Iterator

from repository import TOP, Failure

USE = re.compile(r"^((?:(?:pub|ghost|unfoldable) )*)use ([\w.]+?)(?:\.\{([^}]*)\}| as (\w+))?;?$", re.M)
CLAUSE = re.compile(r"\b(?:requires|ensures)(?: \w+)? \{")
MODIFIERS = r"(?:(?:abbrev|unfoldable|pub) )*"
NAME = r"[^\s(){}\[\],;.:=]+"
BLOCK = re.compile(rf"{MODIFIERS}mutual")
HEADER = re.compile(rf"{MODIFIERS}(?:(record|data) ({NAME})|((?:{NAME} )+)(?:{{\w+}} )?:(?= |$))")
# What a definition's text binds itself: parameters, arguments of λ, values of let, fields and their values.
BINDERS = [
    re.compile(rf"[({{]((?:{NAME} )+): "),
    re.compile(rf"λ ((?:{NAME} ?)+)\. "),
    re.compile(rf"\blet ({NAME}) ="),
    re.compile(rf"^ +pub ({NAME}) :", re.M),
    re.compile(rf"[{{;]\s*({NAME}) ="),
]


@dataclass(frozen=True)
class Place:
    """A name in a module."""

    module: str
    name: str


@dataclass
class Definition:
    """A definition: its place, the names that it gives, and its lines with the comment above them, less empty ones."""

    place: Place
    kind: str
    indent: int
    lines: list[str] = field(default_factory=list)

    @property
    def text(self) -> str:
        """What it says, less comments and what the prover may unfold."""
        lines = (it.partition("-- ")[0].rstrip() for it in self.lines)
        return "\n".join(it for it in lines if not it.lstrip().startswith("unfolding "))

    def names(self) -> list[str]:
        """Returns its own name, and those of its constructors."""
        names = [self.place.name]
        if self.kind == "data":
            names.append(f"fold-{self.place.name}")
            for line in re.findall(rf"^ {{{self.indent + 2}}}((?:{NAME} )+):", self.text, re.M):
                names += line.split()
        return names

    def without(self, name: str) -> Definition:
        """Returns a record less its field of this name."""
        lines, left_out = [], False
        for line in self.lines:
            if re.match(rf" {{{self.indent + 2}}}\S", line):
                left_out = line.split()[:2] == ["pub", name]
            lines += [] if left_out else [line]
        return Definition(self.place, self.kind, self.indent, lines)


@dataclass
class Module:
    """A file of definitions, or of clauses."""

    name: str
    text: str
    imports: dict[str, Place] = field(default_factory=dict)
    modules: dict[str, str] = field(default_factory=dict)
    definitions: dict[str, Definition] = field(default_factory=dict)

    def __post_init__(self) -> None:
        for _, module, names, other in USE.findall(self.text):
            for name in re.split(r",\s*", names.strip()) if names else []:
                first, _, second = name.partition(" as ")
                self.imports[second or first] = Place(module, first)
            if not names:
                self.modules[other or module.rpartition(".")[2]] = module
        for definition in parsed(self.name, self.text):
            self.definitions |= {name: definition for name in definition.names()}

    def needs(self, text: str) -> Iterator[Place]:
        """Returns what a text of this module names, in the order in which it names that."""
        words = [it.rstrip(".").split(".") for it in re.findall(r"[^\s(){}\[\],;]+", text)]
        bound = {name for it in BINDERS for names in it.findall(text) for name in names.split()}
        used = dict.fromkeys(it[0] for it in words)
        for word in words:
            if word[0] in self.modules and len(word) > 1:
                yield Place(self.modules[word[0]], word[1])
            elif word[0] not in bound:
                yield from self.of(word[0])
        for name in [*self.imports, *self.definitions]:
            if "◌" in name and all(it in used for it in name.split("◌") if it):
                yield from self.of(name)

    def of(self, name: str) -> Iterator[Place]:
        """Returns where a name stands that is defined or imported here."""
        if name in self.definitions:
            yield Place(self.name, name)
        elif name in self.imports:
            yield self.imports[name]


def parsed(module: str, text: str) -> Iterator[Definition]:
    """Returns the definitions of a file; a comment above a block of mutual ones counts with its first."""
    current, above, base = None, [], 0
    for line in text.splitlines():
        indent = len(line) - len(line.lstrip())
        base = base if indent or not line else 0
        header = HEADER.match(line.lstrip()) if indent == base else None
        if not line.strip() or USE.match(line) or line.startswith("pub mod "):
            above = []
        elif BLOCK.fullmatch(line):
            yield from [current] if current else []
            current, base = None, 2
        elif header:
            yield from [current] if current else []
            kind, named, names = header.groups()
            current = Definition(Place(module, named or names.split()[0]), kind or "", indent, [*above, line])
            above = []
        elif indent == base and line.lstrip().startswith(("--", "infix")):
            above.append(line)
        elif current:
            current.lines += [*above, line]
            above = []
    yield from [current] if current else []


def path_of(name: str) -> str:
    """Returns the file of a module of the repository's specs, from its top."""
    _, crate, _, *parts = name.split(".")
    return f"crates/{crate}/specs/{'/'.join(parts)}.antt"


@cache
def module_of(name: str) -> Module:
    """Returns a module of the repository's specs."""
    path = path_of(name)
    if not os.path.isfile(f"{TOP}/{path}"):
        raise Failure(f"there is no {path}")
    with open(f"{TOP}/{path}", encoding="utf-8") as it:
        return Module(name, it.read())


def is_of_specs(name: str) -> bool:
    """Returns whether a module is one of the repository's specs, neither the kit's nor one of the code's types."""
    return re.match(r"Rattle\.(?!std\.)\w+\.specs\.(?!declared\.)", name) is not None


def origin_of(place: Place) -> Place:
    """Returns where a name is defined, which its module may have from another."""
    if not is_of_specs(place.module):
        return place
    module = module_of(place.module)
    if place.name in module.definitions:
        return place
    if place.name not in module.imports:
        raise Failure(f"{path_of(place.module)} doesn't define {place.name}")
    return origin_of(module.imports[place.name])


def clauses_of(path: str) -> tuple[Module, list[Definition]]:
    """Returns a file of src as a module of its imports for contracts, and the clauses in it."""
    with open(f"{TOP}/{path}", encoding="utf-8") as it:
        text = it.read()
    module = Module(path, "\n".join(re.findall(r"^ghost use [^;]*;$", text, re.M)))
    clauses = [enclosed(text, it.end()) for it in CLAUSE.finditer(text)]
    return module, [Definition(Place(path, "clause"), "", 0, it.splitlines()) for it in clauses]


def enclosed(text: str, start: int) -> str:
    """Returns what stands from here to the brace that closes it."""
    depth, end = 1, start
    while depth:
        depth += {"{": 1, "}": -1}.get(text[end], 0)
        end += 1
    return text[start : end - 1]
