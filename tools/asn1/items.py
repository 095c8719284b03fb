"""Which types get a page, which a name alone, and what each is called; in the order in which they need one another."""
from dataclasses import dataclass, field

from constraints import LEAST as LEAST_NUMBER, MOST as MOST_NUMBER, MOST_SIZE
from names import TAKEN, apart, shorter, snake, spec_word, upper_camel
from notation import Refused, placed
from resolve import TEXTS, Type, Use
from spelling import definition

# Lines of a list on either side of its marker; items of an ENUMERATED with its additions, as an `enum` has variants.
MOST, MOST_ADDED = 48, 40
MOST_ITEMS = 256
WITH_PAGE = ("SEQUENCE", "CHOICE", "ENUMERATED")
LISTS = ("SEQUENCE OF", "SET OF")
# Those of which a list can say each default.
DEFAULTS = ("BOOLEAN", "ENUMERATED", "INTEGER", "BIT STRING", "NAMED BITS", "OCTET STRING", "OBJECT IDENTIFIER")
# Those with named numbers, and the numbers that a constant of a page holds.
NAMED = {"INTEGER": (LEAST_NUMBER, MOST_NUMBER), "BIT STRING": (0, MOST_SIZE)}
OTHER_FILES = ("lib", "aliases", "tables")


@dataclass(eq=False)
class Item:
    """A type with a page, or with a name alone."""
    key: tuple              # the module, and the name or the path
    type: Type
    line: int
    rust: str
    word: str
    crate: str
    text: list              # the lines of its definition
    target: Use = None      # of a definition that is another name
    needs: list = field(default_factory=list)
    is_limited: bool = False    # whether it has a type under its constraints too
    is_bound: bool = False      # whether its name is that of this type
    depth: object = 0       # the levels that the deepest component takes; None where that depends on the value

    @property
    def has_page(self):
        return self.type.kind in WITH_PAGE and self.target is None

    @property
    def file(self):
        return snake(self.rust, OTHER_FILES) if self.has_page else "aliases"

    @property
    def specs(self):
        return upper_camel(self.key[0])

    @property
    def lists(self):
        return f"{self.word}_lists"

    def variants(self):
        """Returns the variant of each alternative or item, none twice."""
        of = self.type
        return apart([*of.items, *(of.added_items or [])] if of.items else [part.name for part in of.all_parts], upper_camel)

    def fields(self):
        """Returns the field of each component, none twice."""
        return apart([part.name for part in self.type.all_parts], snake)


class Items:
    """All types that are wanted, with those that they are made of. `crates` says of a module where its types go."""

    def __init__(self, modules, crates):
        self.modules, self.crates = modules, crates
        self.items, self.order, self.held = {}, [], set()
        self.rust_names, self.spec_words = dict.fromkeys(TAKEN), {}

    def add(self, use):
        """Returns the item of a type that has a name, with all that it needs."""
        if use.name not in self.items:
            pos, full = self.modules.defined[use.name]["pos"], self.modules.cache[use.name]
            with placed(use.name[0], pos):
                self.made(use.name, full.type, pos, definition(use.name[1], full), full if full.name else None)
        return self.items[use.name]

    def of(self, use):
        """Returns the item of a use, or None."""
        return self.items[use.name] if use.name else use.item

    def owner(self, use):
        """Returns the item with the page that defines the type of a use, behind names for it."""
        item = self.of(use)
        while item.target:
            item = self.of(item.target)
        return item

    def made(self, key, of, line, text, target=None):
        name = key[1]
        rust = self.unique(self.rust_names, upper_camel, key)
        word = self.unique(self.spec_words, spec_word, key)
        item = Item(key, of, line, rust, word, self.crates.get(key[0], snake(key[0])), text, target)
        self.items[key] = item
        if target:
            self.need(item, target, name, line)
        elif of.kind in LISTS:
            self.need_element(item, of, name, line)
        elif of.contained:
            self.need_contents(item, of.contained, name, line)
        elif of.kind in NAMED:
            self.expect_named(of)
        elif of.kind == "ENUMERATED":
            self.expect_few_items(of)
        elif of.parts is not None:
            self.need_parts(item)
        self.order.append(item)
        return item

    @staticmethod
    def expect_few_lines(of):
        """Refuses a list that is too long for the macros that read it."""
        for side, limit, where in ((of.parts, MOST, "before"), (of.added or [], MOST_ADDED, "behind")):
            if len(side) > limit:
                raise Refused(f"{len(side)} lines of a list {where} its marker are more than the {limit} that a page can have")

    @staticmethod
    def expect_few_items(of):
        """Refuses an ENUMERATED of more items than a page has variants."""
        count = len(of.items) + len(of.added_items or [])
        if count > MOST_ITEMS:
            raise Refused(f"{count} items are more than the {MOST_ITEMS} that a page can have")

    @staticmethod
    def expect_named(of):
        """Refuses numbers with a name that no constant holds."""
        least, most = NAMED[of.kind]
        for name, number in of.names.items():
            if not least <= number <= most:
                raise Refused(f"the number of {name} is past those of a page")

    def bind(self, names):
        """Makes those of these names that have no page names of the types under their constraints."""
        for module, name in names:
            item = self.items.get((self.modules.home(module, name), name))
            if item and not item.has_page and item.type.limits:
                item.is_bound = item.is_limited = True

    def limited_names(self, item):
        """Returns the name of a type under its constraints and that of these, which no other has."""
        name = item.rust
        while f"{name}Limits" in self.rust_names or not item.is_bound and f"Limited{name}" in self.rust_names:
            name += "_"
        return item.rust if item.is_bound else f"Limited{name}", f"{name}Limits"

    def need_parts(self, item):
        """Gives the types of a record's or a choice's parts their items."""
        self.expect_few_lines(item.type)
        refused = len(self.modules.refusals.found)
        for number, part in enumerate(item.type.all_parts):
            with self.modules.refusals.kept(part.module, part.line):
                if part.group is not None:
                    part.name, part.use = self.group_name(item.type, number), Use(Type("SEQUENCE", parts=part.group))
                    self.need(item, part.use, f"{item.key[1]}/Group{number}", part.line)
                    continue
                self.need(item, part.use, f"{item.key[1]}/{part.name}", part.line)
                if part.presence == "default":
                    self.need_default(part)
        if len(self.modules.refusals.found) == refused:
            item.depth = self.depth_of(item)

    @staticmethod
    def group_name(of, number):
        """Returns the name of the group at a place, which no component has."""
        name, taken = f"group{number}", {part.name for part in of.all_parts if part.group is None}
        while name in taken:
            name += "x"
        return name

    @staticmethod
    def need_default(part):
        """Refuses a default that a list can't say, or that isn't of its type."""
        of, default = part.use.type, part.normal_default
        is_text = of.kind in TEXTS and of.kind != "BMPString"
        is_empty = of.kind == "SEQUENCE OF" and not default
        if of.held_kind not in DEFAULTS and not is_text and not is_empty:
            raise Refused(f"{part.name} has a DEFAULT of {of.held_kind}, which a list can't say")
        if is_text and not all(32 <= code < 127 and chr(code) not in '"\\' for code in default):
            raise Refused(f"{part.name} has a DEFAULT with a character that a list can't say")
        if of.kind == "INTEGER" and not LEAST_NUMBER <= default <= MOST_NUMBER:
            raise Refused(f"{part.name} has a DEFAULT past 128 bits with a sign, which isn't taken")
        if not of.limits.hold(default):
            raise Refused(f"{part.name} has a DEFAULT that its constraints don't allow")

    def need(self, item, use, path, line):
        """Gives the type of a use its item, where it has one."""
        if use.name:
            found = self.add(use)
        elif use.type.kind in WITH_PAGE:
            key = (item.key[0], path)
            found = self.items.get(key) or self.made(key, use.type, line, definition(path.replace("/", "."), use))
            use.item = found
        elif use.type.kind in LISTS:
            return self.need_element(item, use.type, path, line)
        elif use.type.contained:
            return self.need_contents(item, use.type.contained, path, line)
        else:
            return None
        item.needs.append(found)
        return found

    def need_element(self, item, of, path, line):
        """Gives the elements of a list a name, where they stand under constraints: those of a list have their type's
        alone. The name of a definition of the same crate serves; that of another crate isn't changed for a list here."""
        found = self.need_inner(item, of.element, f"{path}/Item", f"{path}/Element", line)
        if of.kind == "SET OF":
            self.hold_in_set(of.element)
        return found

    def need_contents(self, item, use, path, line):
        """Gives what octets contain a name in the same way: it has its type's constraints alone."""
        return self.need_inner(item, use, f"{path}/Contents", f"{path}/Contents", line)

    def need_inner(self, item, use, path, limited_path, line):
        """Returns the item of an element, or of what octets contain, or None."""
        found = self.need(item, use, path, line)
        if use.type.kind not in WITH_PAGE and use.type.limits:
            is_written_here = use.own or use.name is None
            if is_written_here or found.crate != item.crate:
                key, target = (item.key[0], limited_path), None if is_written_here else use
                text = definition(key[1].replace("/", "."), use)
                found = self.items.get(key) or self.made(key, use.type, line, text, target)
                item.needs.append(found)
            found.is_limited = True
            use.limited = found
        return found

    @staticmethod
    def unique(taken, spell, key):
        """Returns a name in a spelling that no other has: with the module's behind it, or a number."""
        name, module = shorter(key[1], taken, spell), upper_camel(key[0])
        while taken.get(name, key) != key:
            name = f"{name}{module}" if name[0].isupper() and not name.endswith(module) else f"{name}_2"
        taken[name] = key
        return name

    def hold_in_set(self, use):
        """Notes the types with a page of which a SET OF is made, whose values are told apart there."""
        item = self.items.get(use.name) if use.name else use.item
        if item and item.key in self.held:
            return
        if item:
            self.held.add(item.key)
        of = use.type
        for inner in [*(part.use for part in of.all_parts), *filter(None, (of.element, of.contained, item and item.target))]:
            self.hold_in_set(inner)

    def levels(self, use):
        """Returns how many levels a value of the type takes at most; None where that depends on the value."""
        if use.type.kind in LISTS:
            return None
        if use.type.kind == "DATE":
            return 2
        if use.type.contained:
            return self.levels(use.type.contained)
        if use.type.parts is None:
            return 0
        depth = self.owner(use).depth
        return None if depth is None else depth + 1

    def depth_of(self, item):
        """Returns the levels of the deepest component where no value changes them, else None."""
        of, found = item.type, [self.levels(part.use) for part in item.type.all_parts]
        is_open = of.kind == "SEQUENCE" and (of.added is not None or any(part.is_slot for part in of.parts))
        return None if is_open or None in found else max(found, default=0)
