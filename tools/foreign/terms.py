"""Values as asn1ct takes them, and as the program in Rattle shows them."""
from constraints import LETTERS
from literals import AS_OCTETS
from pages import HELD
from values import ANY, LEAST, MOST, TIMES, Held, default_of
from words import holder

LISTS = ("SEQUENCE OF", "SET OF")
CHARACTERS = (*LETTERS, *TIMES, *(kind for kind in AS_OCTETS if kind != "UTF8String"))


def part_named(of, name):
    return next(part for part in of.all_parts if part.name == name)


def bits_term(bits):
    return f"<<{','.join(f'{bit}:1' for bit in bits)}>>"


def code_term(code):
    """Returns the term of a character's code, past one octet by its four octets."""
    return str(code) if code < 256 else f"{{0,0,{code >> 8},{code & 255}}}"


def term(of, value):
    """Returns the term of Erlang, with records, whose names asn1ct doesn't read."""
    kind = of.kind
    if kind in ("BOOLEAN", "ENUMERATED"):
        return f"'{str(value).lower() if kind == 'BOOLEAN' else value}'"
    if kind == "NULL":
        return "'NULL'"
    if kind == "INTEGER":
        return str(value)
    if of.contained:
        module, name = of.contained.name
        return f"{{contained,'{module}','{name}',{term(of.contained.type, value)}}}"
    if isinstance(value, Held):
        return term(value.use.type, value.value)
    if kind in ("OCTET STRING", "OPEN"):
        octets = f"<<{','.join(map(str, value))}>>"
        return f"{{asn1_OPENTYPE,{octets}}}" if of.note else octets
    if kind == "BIT STRING":
        return bits_term(value)
    if kind == "OBJECT IDENTIFIER":
        return f"{{{','.join(map(str, value))}}}"
    if kind in CHARACTERS:
        return f"[{','.join(map(code_term, map(ord, value)))}]"
    if kind == "UTF8String":
        return f'<<"{value}">>'
    if kind in LISTS:
        return f"[{','.join(term(of.element.type, one) for one in value)}]"
    if kind == "CHOICE":
        return f"{{'{value[0]}',{term(part_named(of, value[0]).use.type, value[1])}}}"
    return f"{{{','.join(['r', *fields(of, value)])}}}"


def fields(of, value):
    """Gives the fields of a record, those of a group among them, in the order of the text."""
    for part in sorted(of.all_parts, key=lambda part: part.place):
        if part.group is not None:
            yield from fields(part.use.type, value.get(part.name, {}))
        elif part.name in value:
            yield term(part.use.type, value[part.name])
        else:
            yield "asn1_DEFAULT" if part.presence == "default" else "asn1_NOVALUE"


def values_of(use, count, chooser):
    """Returns values of a type, none twice: the least, the most, and some others, each with its term. Each is chosen by
    what `chooser` gives for a manner and the value's number."""
    found = {}
    for number in range(count):
        value = chooser({0: LEAST, 1: MOST}.get(number, ANY), number).value(use)
        found.setdefault(term(use.type, value), value)
    return [(value, text) for text, value in found.items()]


class Shown:
    """The texts of `{:?}` of values, which name each component, alternative and item."""

    def __init__(self, items):
        self.items = items

    def limited(self, of, value):
        return f"Constrained {{ value: {self.text(of, value)}, limits: PhantomData<_> }}"

    def of_use(self, use, value):
        """Returns the text of a value of a type where it is used."""
        of = use.type
        if of.kind in ("SEQUENCE", "CHOICE", "ENUMERATED"):
            return self.of_page(self.items.owner(use), value)
        return self.text(of, value)

    def of_page(self, item, value):
        """Returns the text of a value of a type with a page."""
        of = item.type
        if of.kind == "ENUMERATED":
            return item.variants()[value]
        if of.kind == "CHOICE":
            part, variant = part_named(of, value[0]), item.variants()[value[0]]
            return variant if part.use.type.kind == "NULL" else f"{variant}({self.of_use(part.use, value[1])})"
        names = item.fields()
        found = [f"{names[part.name]}: {self.of_part(part, of, value)}" for part in of.all_parts]
        return f"{item.rust} {{ {', '.join(found)} }}" if found else item.rust

    def of_part(self, part, of, value):
        is_there = part.name in value
        if part.is_slot:
            return f"Some({self.of_use(part.use, value[part.name])})" if is_there else "None"
        return self.of_use(part.use, value[part.name] if is_there else default_of(part))

    def text(self, of, value):
        """Returns the text of a value of a type without a page."""
        kind = of.kind
        if kind == "BOOLEAN":
            return str(value).lower()
        if kind == "NULL":
            return "()"
        if kind == "INTEGER":
            return f"Primitive({value})" if holder(of.limits) == "Integer" else str(value)
        if kind in ("OCTET STRING", "OPEN"):
            return f"{HELD[kind]} {{ octets: {[*value]} }}"
        if kind == "BIT STRING":
            padded = value + "0" * (-len(value) % 8)
            octets = [int(padded[place : place + 8], 2) for place in range(0, len(padded), 8)]
            bits = f"BitString {{ octets: {octets}, len: {len(value)} }}"
            return f"NamedBits {{ bits: {bits} }}" if of.held_kind == "NAMED BITS" else bits
        if kind in LETTERS:
            return f"{HELD[kind]} {{ characters: {[ord(it) for it in value]} }}"
        if kind == "UTF8String":
            return f'"{value}"'
        elements = [self.of_element(of.element, one) for one in value]
        listed = f"[{', '.join(elements)}]"
        return f"SetOf {{ members: {listed} }}" if kind == "SET OF" else listed

    def of_element(self, use, value):
        return self.limited(use.type, value) if use.limited else self.of_use(use, value)
