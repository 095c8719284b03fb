"""A value of a type to begin with: as code, and as a term for asn1ct. What may be absent is, a list has one element or as
many as it needs, a number is the least."""
from names import grouped, snake
from notation import Refused
from pages import HELD, Page
from resolve import TEXTS
from words import Imports, holder

# Letters of a text whose alphabet isn't constrained.
LETTER = {"NumericString": "0"}


def length_of(limits):
    """Returns how many items a value has: one, or as many as the size asks for."""
    low, high, _ = limits.size or (0, None, False)
    return low or (0 if high == 0 else 1)


class Example(Page):
    """What a value of an item is made from. It stands in a crate above those of the types."""

    def __init__(self, items, item):
        super().__init__(items, item, Imports())
        self.takes_memory = False

    def brought(self, item, name):
        self.imports.use(f"{item.crate}::{item.file}", name)
        return name

    def library(self, name):
        """Imports a type of the library, and returns its name."""
        if name != "Utf8String":
            self.imports.use("rasn_below::types", name)
        return "String" if name == "Utf8String" else name

    def memory(self, text):
        self.takes_memory = True
        return text

    def list(self, items):
        """Returns a list of these, as code."""
        return self.memory(f"Vec::from_array(alloc, [{', '.join(items)}])?" if items else "Vec::new(alloc)")

    def made(self, use, default=None):
        """Returns a value, or the one that is given as the default of a simple type: as code, and as a term."""
        of = use.type
        simple = {"BOOLEAN": self.truth, "INTEGER": self.number, "ENUMERATED": self.one_of}
        if of.kind in simple:
            return simple[of.kind](use, default)
        if of.contained:
            raise Refused("no value of OCTET STRING (CONTAINING) is written")
        if of.kind == "NULL":
            return "()", "'NULL'"
        make = {"SEQUENCE": self.made_record, "CHOICE": self.made_choice}
        make |= {"SEQUENCE OF": self.made_list, "SET OF": self.made_list}
        if of.kind in make:
            return make[of.kind](use)
        if of.kind in TEXTS:
            return self.made_text(of)
        if of.kind in ("OCTET STRING", "OPEN"):
            count = 1 if of.kind == "OPEN" else length_of(of.limits)
            return f"{self.library(HELD[of.kind])}::new({self.list(['0'] * count)})", f"<<{','.join(['0'] * count)}>>"
        if of.kind == "BIT STRING":
            return self.made_bits(of)
        if of.kind == "OBJECT IDENTIFIER":
            return self.memory(f"{self.library(HELD[of.kind])}::from_slice(alloc, &[1, 2])?"), "{1,2}"
        raise Refused(f"no value of {of.kind} is written: one of another type has to be named first")

    @staticmethod
    def truth(_use, default):
        return ("true", "true") if default else ("false", "false")

    def number(self, use, default):
        low, high, _ = use.type.limits.value or (None, None, False)
        found = default if default is not None else low if low is not None else min(high or 0, 0)
        if holder(use.type.limits) == "Integer":
            return f"{self.library('Integer')}::from({grouped(found)}_i128)", str(found)
        return grouped(found), str(found)

    def one_of(self, use, default):
        owner = self.items.owner(use)
        name = default or use.type.items[0]
        return f"{self.brought(owner, owner.rust)}::{owner.variants()[name]}", f"'{name}'"

    def made_record(self, use):
        """Returns a record; a term has its components in the order of the text, those of groups among them."""
        fields, terms = [], {}
        for part in use.type.all_parts:
            default = part.default if part.presence == "default" else None
            code, term = ("None", None) if part.is_slot else self.made(part.use, default)
            fields.append(f"{snake(part.name)}: {code}")
            absent = ["asn1_NOVALUE"] * len(part.group or [part])
            terms[part.place] = absent if part.is_slot else ["asn1_DEFAULT"] if self.is_at_default(part) else [term]
        owner = self.items.owner(use)
        found = [term for place in sorted(terms) for term in terms[place]]
        return f"{self.brought(owner, owner.rust)} {{ {', '.join(fields)} }}", f"{{{','.join(['t', *found])}}}"

    @staticmethod
    def is_at_default(part):
        """Returns whether a component has its default."""
        return part.presence == "default" and part.use.type.kind in ("BOOLEAN", "INTEGER", "ENUMERATED")

    def made_choice(self, use):
        owner, part = self.items.owner(use), use.type.parts[0]
        name = f"{self.brought(owner, owner.rust)}::{owner.variants()[part.name]}"
        code, term = self.made(part.use)
        return name if part.use.type.kind == "NULL" else f"{name}({code})", f"{{'{part.name}',{term}}}"

    def made_list(self, use):
        element, count = use.type.element, length_of(use.type.limits)
        code, term = self.made(element)
        if element.limited:
            code = f"{self.brought(element.limited, f'Limited{element.limited.rust}')}::new({code})"
        found = self.list([code] * count)
        if use.type.kind == "SET OF":
            found = f"{self.library('SetOf')}::from_vec({found})"
        return found, f"[{','.join([term] * count)}]"

    def made_text(self, of):
        letters = of.limits.alphabet or [ord(LETTER.get(of.kind, "A"))]
        letter = next((chr(it) for it in letters if 32 <= it < 127 and chr(it) not in '"\\'), None)
        if letter is None:
            raise Refused("a text without an ASCII letter has no value that is written")
        text = letter * length_of(of.limits)
        term = f'<<"{text}">>' if of.kind == "UTF8String" else f'"{text}"'
        return self.memory(f'{self.library(HELD[of.kind])}::from_str(alloc, "{text}")?'), term

    def made_bits(self, of):
        count = length_of(of.limits)
        code = self.memory(f"{self.library('BitString')}::from_slice(alloc, &[true; {count}])?")
        if of.held_kind == "NAMED BITS":
            code = f"{self.library('NamedBits')}::new({code})"
        return code, f"<<{','.join(['1:1'] * count)}>>"
