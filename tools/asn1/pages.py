"""The pages of types: for each a file of Rattle, as `docs/SCHEMAS.md` has them."""
import templates
from constraints import LETTERS
from names import constant, grouped
from resolve import TEXTS
from templates import filled
from words import Imports, fitted, holder

# The types of the library that hold those of ASN.1, and the words of their values.
HELD = {
    "BOOLEAN": "bool", "NULL": "()", "OBJECT IDENTIFIER": "ObjectIdentifier", "UTCTime": "UtcTime",
    "GeneralizedTime": "GeneralizedTime", "DATE": "Date", "UTF8String": "Utf8String", "TeletexString": "TeletexString",
    "GraphicString": "GraphicString", "GeneralString": "GeneralString", "OPEN": "Any", "OCTET STRING": "OctetString",
    "BIT STRING": "BitString", "NAMED BITS": "NamedBits", "IA5String": "Ia5String", "VisibleString": "VisibleString",
    "PrintableString": "PrintableString", "NumericString": "NumericString", "BMPString": "BmpString",
}
VALUES = {"BOOLEAN": "truth", "OCTET STRING": "octets", "OPEN": "octets", "BIT STRING": "bits", "NULL": "nothing",
          **dict.fromkeys(LETTERS, "characters")}

# Those that the module of names doesn't pass on.
TIMES = ("UTCTime", "GeneralizedTime", "DATE")
# The names of these that the library has.
LIBRARY = {"Integer", "SetOf", "Constrained", "Contains"}
LIBRARY |= {HELD[kind] for kind in HELD if kind not in ("BOOLEAN", "NULL", *TIMES)}

# Items that a list of a page has: the macros that read it nest one in another.
MOST_LISTED = 160

# The module with what a page names.
PAGE = "rasn_below::page"


def bounds_text(bounds):
    low, high, marked = bounds
    text = f"{'' if low is None else grouped(low)}..{'' if high is None else '=' + grouped(high)}"
    return f"{text}, ..." if marked else text


def is_named_bits(of):
    return of.held_kind == "NAMED BITS"


def holds(of, what):
    """Returns whether a type is what is asked, or holds such a type."""
    inner = [*(part.use for part in of.all_parts), *filter(None, (of.element, of.contained))]
    return what(of) or any(holds(use.type, what) for use in inner)


def indented(lines, columns):
    return [f"{' ' * columns}{line}" for line in lines]


class Page:
    """What the page of an item is made from, and what it imports."""

    def __init__(self, items, item, imports=None):
        self.items, self.item, self.letters = items, item, {}
        self.imports = Imports() if imports is None else imports
        self.fields = item.fields() if item.type.kind == "SEQUENCE" else {}

    def text(self):
        """Returns the page."""
        make = {"SEQUENCE": self.record, "CHOICE": self.choice, "ENUMERATED": self.enumerated}[self.item.type.kind]
        return self.file(f"{self.item.rust}, of the module {self.item.key[0]}.", make())

    def file(self, about, lines):
        """Returns a file of these lines under what it is about and what it imports."""
        fitting = [piece for line in lines for piece in fitted(line)]
        blocks = [[f"//! {about}"], self.imports.ghost_lines(), self.imports.code_lines(), fitting]
        return "\n\n".join("\n".join(block) for block in blocks if block) + "\n"

    def value(self, value):
        """Imports a word of values, and returns it."""
        return self.imports.word(value)

    # Types and their parts.

    def rust(self, use):
        """Returns the type of a component."""
        item = self.items.of(use)
        return self.held(use.type) if item is None or use.own or item.is_bound else self.brought(item, item.rust)

    def held(self, of):
        """Returns the type of the library that holds a type of ASN.1."""
        if of.kind in ("SEQUENCE OF", "SET OF"):
            element = self.element(of.element)
            if of.kind == "SEQUENCE OF":
                return f"Vec<{element}>"
            return f"SetOf<{element}>"
        if of.contained:
            return f"Contains<{self.element(of.contained)}>"
        name = holder(of.limits) if of.kind == "INTEGER" else HELD[of.held_kind]
        if of.kind in TIMES:
            self.imports.use("rasn_below::types", name)
        return name

    def element(self, use):
        """Returns the type of a list's elements, or of what octets contain: under constraints where they have any."""
        return self.brought(use.limited, self.items.limited_names(use.limited)[0]) if use.limited else self.rust(use)

    def brought(self, item, name):
        """Imports what an item's file has under this name, and returns the name."""
        if (item.crate, item.file) != (self.item.crate, self.item.file):
            self.imports.use(f"{'crate' if item.crate == self.item.crate else item.crate}::{item.file}", name)
        return name

    def bounds(self, limits):
        """Returns what stands in the brackets of a list's line."""
        found = [bounds_text(limits.value)] if limits.value else []
        if limits.alphabet is not None:
            name = f"LETTERS_{constant(self.item.rust)}_{len(self.letters)}"
            found.append(f"FROM {self.letters.setdefault(limits.alphabet, name)}")
        return ", ".join([*found, *([f"SIZE {bounds_text(limits.size)}"] if limits.size else [])])

    def letter_lines(self):
        """Returns the constants of the permitted alphabets that the bounds name."""
        found = [(f"const {name}: &[u32] = &[{', '.join(map(str, codes))}];", "") for codes, name in self.letters.items()]
        return [line for lines in found for line in lines]

    def content(self, use, name=None):
        """Returns what a value of the name is; without a name, as a function."""
        kind = use.type.kind
        if kind == "INTEGER" and holder(use.type.limits).startswith("u"):
            self.imports.prelude("pos")
            return f"{self.value('whole')} (pos {name})" if name else f"(λ v. {self.value('whole')} (pos v))"
        if kind == "NULL":
            return self.value("nothing") if name else f"(λ _. {self.value('nothing')})"
        if use.type.contained or kind != "INTEGER" and kind not in VALUES:
            word = f"⟦<{self.rust(use)} as AsnType>⟧.value"
        else:
            word = self.value("whole" if kind == "INTEGER" else VALUES[kind])
        return f"{word} {name}" if name else word

    def slots(self, parts):
        """Returns what each component is, absent or there."""
        lines = []
        self.imports.prelude("[]", *["◌∷◌"] * bool(parts))
        for part in parts:
            field = f"x.{self.fields[part.name]}"
            if part.is_slot:
                lines.append(f"        {self.value('slot_of')} {self.content(part.use)} {field} ∷")
            else:
                self.imports.prelude("Some")
                lines.append(f"        Some ({self.content(part.use, field)}) ∷")
        return lines

    def levels(self, parts):
        """Returns the levels of components in their order, each on a line, with 0 behind the last that has any."""
        found = [self.levels_of(part) for part in parts]
        while found and found[-1] == "0":
            found.pop()
        if not found:
            return ["0"]
        self.imports.prelude("max")
        lines = [f"(max {level if level == '0' else f'({level})'}" for level in found]
        return [*lines[:-1], f"{lines[-1]} 0{')' * len(lines)}"]

    def levels_of(self, part):
        if not part.is_slot and self.items.levels(part.use) == 0:
            return "0"
        levels, field = f"⟦<{self.rust(part.use)} as AsnType>⟧.levels", f"x.{self.fields[part.name]}"
        return f"{self.value('slot_levels')} {levels} {field}" if part.is_slot else f"{levels} {field}"

    def is_copy(self, of):
        """Returns whether values of a type can be copied."""
        if of.kind == "INTEGER":
            return holder(of.limits) != "Integer"
        if of.parts is not None:
            return all(self.is_copy(part.use.type) for part in of.all_parts)
        return of.kind in ("BOOLEAN", "NULL", "ENUMERATED")

    def derives(self):
        """Returns the line of what is derived. In a SET OF values are told apart (`Eq`), which named bits alone aren't; what
        holds such a SET OF isn't compared."""
        of = self.item.type
        if self.is_copy(of):
            return "#[derive(Clone, Copy, Debug, PartialEq, Eq)]"
        if holds(of, lambda it: it.kind == "SET OF" and holds(it.element.type, is_named_bits)):
            return "#[derive(Debug, Drop)]"
        is_apart = self.item.key in self.items.held and not holds(of, is_named_bits)
        return f"#[derive(Debug, Drop, PartialEq{', Eq' * is_apart})]"

    def doc(self):
        return [f"/// {line}" for line in self.item.text]

    def own_spec(self, *names):
        self.imports.spec(f"{self.item.crate}.specs.{self.item.specs}", *names)

    def variants_spec(self, names):
        self.imports.spec(f"{self.item.crate}.specs.declared.{self.item.file}.{self.item.rust}.TheVariants", *names)

    # Records.

    def list_line(self, part):
        """Returns the line of a component in the list."""
        rust, bounds = self.rust(part.use), self.bounds(part.use.type.limits)
        presence = "group" if part.group is not None else part.presence
        if part.is_slot:
            rust = f"Option<{rust}>"
        if presence == "default":
            bounds = f"{bounds} DEFAULT {self.default(part)}".strip()
        return f'{presence} {part.tag} "{part.name}" {self.fields[part.name]}: {rust} [{bounds}];'

    def default(self, part):
        """Returns a default as code."""
        of = part.use.type
        if of.kind == "BOOLEAN":
            return "true" if part.default else "false"
        if of.kind == "INTEGER":
            return f"{grouped(part.default)}_{holder(of.limits).replace('Integer', 'i128')}"
        if of.kind == "BIT STRING":
            return f"Bits([{', '.join('true' if bit == '1' else 'false' for bit in part.normal_default)}])"
        if of.kind == "OCTET STRING":
            return f"Octets([{', '.join(map(str, part.default))}])"
        if of.kind == "OBJECT IDENTIFIER":
            self.imports.use("rasn_below", "Arcs")
            return f"Arcs([{', '.join(map(grouped, part.default))}])"
        if of.kind in TEXTS:
            text = f"\"{''.join(map(chr, part.default))}\""
            return f"Utf8Text({text})" if of.kind == "UTF8String" else f"Text(*b{text})"
        if of.kind == "SEQUENCE OF":
            return "EmptyList"
        owner = self.items.owner(part.use)
        return f"Item({self.brought(owner, owner.rust)}::{owner.variants()[part.default]})"

    def record(self):
        """Returns the lines of a SEQUENCE's page."""
        of, item, imports = self.item.type, self.item, self.imports
        texts = [self.list_line(part) for part in of.all_parts]
        if of.added is not None:
            texts.insert(len(of.parts), "...;")
        fields = []
        for part in of.all_parts:
            rust = self.rust(part.use)
            fields.append(f"    pub {self.fields[part.name]}: {f'Option<{rust}>' if part.is_slot else rust},")
        self.own_spec(item.lists)
        imports.word("fields_of")
        imports.prelude("refl")
        imports.use(PAGE, "*")
        added = []
        if of.added:
            added = ["    ghost added = { λ x.", *self.slots(of.added), "        [] };", ""]
        return filled(
            templates.RECORD, doc=self.doc(), derives=self.derives(), rust=item.rust, fields=fields, lists=item.lists,
            letters=self.letter_lines(), lines=indented(texts, 4), slots=self.slots(of.parts),
            over="x" if of.parts else "_", added=added, depth=self.record_depth(),
        )

    def record_depth(self):
        """Returns how many levels the deepest component takes."""
        of, depth = self.item.type, self.item.depth
        if depth is not None:
            return [f"    ghost depth = {{ λ _. {depth} }};"] if depth else []
        levels = [self.levels(parts) for parts in (of.parts, of.added or [])]
        if levels == [["0"], ["0"]]:
            return []
        if not of.added:
            lines = ["    ghost depth = { λ x.", *indented(levels[0], 8)]
        else:
            lines = [f"    ghost depth = {{ λ x. {self.value('deeper_of')}", *indented(sum(levels, []), 8)]
        return [*lines[:-1], f"{lines[-1]} }};"]

    # Choices.

    def alternative(self, part, variant, chosen, place):
        """Returns of an alternative its variant, its line in the list, and which it is."""
        self.imports.word(chosen)
        line, which = f'{part.tag} "{part.name}" {variant}', f"{chosen} {place}"
        if part.use.type.kind == "NULL":
            return f"{variant},", f"{line};", f"| {variant} ↦ {which} {self.value('nothing')}"
        rust, bounds = self.rust(part.use), self.bounds(part.use.type.limits)
        return f"{variant}({rust}),", f"{line}: {rust} [{bounds}];", f"| {variant} v ↦ {which} ({self.content(part.use, 'v')})"

    def choice_depth(self, names):
        """Returns how many levels each alternative takes."""
        found = [(part, names[part.name], self.items.levels(part.use)) for part in self.item.type.all_parts]
        if None not in (levels for _, _, levels in found):
            most = max((levels for _, _, levels in found), default=0)
            return [f"    ghost depth = {{ λ _. {most} }};", ""] if most else []
        lines = []
        for part, variant, levels in found:
            if levels is None:
                    lines.append(f"      | {variant} v ↦ ⟦<{self.rust(part.use)} as AsnType>⟧.levels v")
            else:
                lines.append(f"      | {variant}{'' if part.use.type.kind == 'NULL' else ' _'} ↦ {levels}")
        return ["    ghost depth = { elim [", *lines, "    ] };", ""]

    def choice(self):
        """Returns the lines of a CHOICE's page."""
        of, item, imports = self.item.type, self.item, self.imports
        names = item.variants()
        found = []
        for chosen, side in (("chosen", of.parts), ("chosen_behind", of.added or [])):
            found += [self.alternative(part, names[part.name], chosen, place) for place, part in enumerate(side)]
        lines = [line for _, line, _ in found]
        if of.added is not None:
            lines.insert(len(of.parts), "...;")
        self.own_spec(item.lists)
        self.variants_spec(names.values())
        imports.prelude("refl")
        imports.word("variants_listed")
        imports.use(PAGE, "*")
        return filled(
            templates.CHOICE, doc=self.doc(), derives=self.derives(), rust=item.rust, lists=item.lists,
            variants=indented([variant for variant, _, _ in found], 4), letters=self.letter_lines(), lines=indented(lines, 4),
            chosen=indented([chosen for _, _, chosen in found], 6), depth=self.choice_depth(names),
        )

    # ENUMERATED types.

    def enumerated(self):
        """Returns the lines of an ENUMERATED's page."""
        of, item, imports = self.item.type, self.item, self.imports
        names = item.variants()
        roots, added = of.items, of.added_items or []
        items = []
        for side, identifiers in (("root", roots), ("added", added)):
            for place, name in enumerate(identifiers):
                items.append(f"      | {names[name]} ↦ {self.value('item')} {self.value(side)} {place}")
        counts = f"all_items {len(roots)}" if of.added_items is None else f"extensible_items {len(roots)} {len(added)}"
        imports.word(counts.split()[0])
        self.variants_spec(names.values())
        imports.use(PAGE, "*")
        is_wide = len(names) > MOST_LISTED
        return filled(
            templates.WIDE_ENUMERATED if is_wide else templates.ENUMERATED, doc=self.doc(), rust=item.rust, counts=counts,
            items=items, variants=[f"    {names[name]}," for name in [*roots, *added]],
            **(self.wide(names) if is_wide else {"lines": self.item_lines(names)}),
        )

    def item_lines(self, names):
        """Returns the lines of a list of items."""
        of = self.item.type
        lines = [[f'    "{name}" {names[name]};' for name in side] for side in (of.items, of.added_items or [])]
        return [*lines[0], *["    ...;"] * (of.added_items is not None), *lines[1]]

    def wide(self, names):
        """Returns what the page of more items than a list has is filled with: their places, one by one."""
        of = self.item.type
        sides = [("Root", of.items), ("Added", of.added_items or [])]
        placed = [(f"Place::{side}({place})", names[name]) for side, found in sides for place, name in enumerate(found)]
        added = "None" if of.added_items is None else f"Some({len(of.added_items)})"
        return {
            "roots": str(len(of.items)), "addeds": added, "identifiers": [f'        "{name}",' for name in names],
            "places": [f"            {self.item.rust}::{variant} => {place}," for place, variant in placed],
            "at": [f"            {place} => Some({self.item.rust}::{variant})," for place, variant in placed],
        }
