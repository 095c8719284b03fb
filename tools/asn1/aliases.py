"""The files of a crate beside its pages: names for types without a page, and what open types may hold."""
import re
import textwrap

import templates
from names import constant, grouped, untaken
from pages import LIBRARY, PAGE, Page
from templates import filled
from words import COLUMNS, HOLDERS, Imports, holder, limit_words


def alias_file(items, named):
    """Returns the file of the names that have no page."""
    imports, taken = Imports(), set()
    lines = [line for item in named for line in Alias(items, item, imports, taken).lines()]
    about = "Names for types under constraints, for lists, and for numbers and bits."
    return Page(items, named[0], imports).file(about, lines[:-1])


class Alias(Page):
    """A name: for a type under constraints, for a list, for numbers or bits. `taken` has the constants of the file."""

    def __init__(self, items, item, imports, taken):
        super().__init__(items, item, imports)
        self.taken = taken

    def lines(self):
        item, of = self.item, self.item.type
        target = self.rust(item.target) if item.target else self.held(of)
        name, limits = self.items.limited_names(item)
        lines = [*self.doc(), f"pub type {item.rust} = {f'Constrained<{target}, {limits}>' if item.is_bound else target};", ""]
        if LIBRARY & set(re.findall(r"\w+", target)):
            self.imports.use(PAGE, "*")
        if of.kind in ("INTEGER", "BIT STRING") and not (item.target and "/" in item.key[1]):
            lines += [line for name, number in of.names.items() for line in self.constant(name, number)]
        if not item.is_limited or not of.limits:
            return lines
        if not item.is_bound:
            lines += [f"/// `{item.rust}` under its constraints.", f"pub type {name} = Constrained<{item.rust}, {limits}>;", ""]
        return [*lines, *self.limits(limits)]

    def constant(self, name, number):
        """Returns the lines of a named number or bit."""
        of, rust = self.item.type, self.item.rust
        is_number = of.kind == "INTEGER"
        what = f"`{name}` of {rust}." if is_number else f"The place of the bit `{name}` of {rust}."
        width = number_type(holder(of.limits), number) if is_number else "usize"
        called = untaken(f"{constant(rust)}_{constant(name)}", self.taken)
        return [f"/// {what}", f"pub const {called}: {width} = {grouped(number)};", ""]

    def limits(self, name):
        """Returns the lines of its constraints, as a type of this name."""
        of, rust = self.item.type, self.item.rust
        self.imports.use(PAGE, "*")
        bounds, words = self.bounds(of.limits), limit_words(of, self.imports)
        called = untaken(f"LIMITS_OF_{constant(rust)}", self.taken)
        lines = filled(templates.LIMITS, rust=rust, limits=name, constant=called, bounds=bounds, words=words)
        return [*self.letter_lines(), *lines, ""]


def number_type(held, number):
    """Returns the type of a named number: that of its type's values, or the smallest that holds it."""
    name = held.replace("Integer", "i128")
    least, most = next((least, most) for it, least, most in HOLDERS if it == name)
    return name if least <= number <= most else next(it for it, least, most in HOLDERS if least <= number <= most)


def table_file(modules, of):
    """Returns the file of the object sets of these modules in which open types look their types up, or None."""
    found = [(name, *row) for module, name in sorted(modules.object_sets) if module in of
             for row in sorted(modules.objects(module, name))]
    names = [f"{constant(name)}_{constant(what)}" for name, _, what, _ in found]
    taken, lines = set(), []
    for (name, number, what, more), called in zip(found, names):
        if names.count(called) > 1:     # one type for several identifiers
            called = f"{called}_{str(number).replace('-', 'MINUS_')}"
        about = f"In {name}, {number} stands for {what}{f' ({more})' if more else ''}."
        lines += [*(f"/// {line}" for line in textwrap.wrap(about, COLUMNS - len("/// "))),
                  f"pub const {untaken(called, taken)}: {number_type('u32', number)} = {grouped(number)};", ""]
    head = ["//! What the values whose types aren't known may hold: the identifiers of each object set, by their types.", ""]
    return "\n".join([*head, *lines]) if lines else None
