"""Schemas in the words of ASN.1, as `docs/SCHEMAS.md` has them, and what a file imports for them."""
import re

from constraints import LETTERS
from resolve import TEXTS

BELOW = "rasn_below.specs."
PAGE = "Page"
HOLDERS = [(f"u{bits}", 0, 2**bits - 1) for bits in (8, 16, 32, 64)] + [
    (f"i{bits}", -(2 ** (bits - 1)), 2 ** (bits - 1) - 1) for bits in (8, 16, 32, 64, 128)
]
PLAIN = {
    "BOOLEAN": "boolean", "NULL": "null", "OBJECT IDENTIFIER": "object_identifier", "UTCTime": "utc_time",
    "GeneralizedTime": "generalized_time", "DATE": "date", "UTF8String": "utf8_string", "TeletexString": "teletex_string",
    "GraphicString": "graphic_string", "GeneralString": "general_string", "OPEN": "open_type",
}
SIZED = {
    "OCTET STRING": "octet_string", "BIT STRING": "bit_string", "NAMED BITS": "named_bits", "IA5String": "ia5_string",
    "VisibleString": "visible_string", "PrintableString": "printable_string", "NumericString": "numeric_string",
    "BMPString": "bmp_string",
}

# Columns of a line.
COLUMNS = 120


def fitted(line):
    """Returns a line in as many as are needed, broken at blanks outside of types and comments and not before a closing
    brace alone, those behind the first indented further."""
    indent = len(line) - len(line.lstrip())
    blanks = [found.start() for found in re.finditer(r"⟦[^⟧]*⟧|--.*|///.*|( )(?!};$)", line) if found[1]]
    places = [place for place in blanks if indent < place <= COLUMNS]
    if len(line) <= COLUMNS or not places:
        return [line]
    return [line[: places[-1]], *fitted(f"{' ' * (indent + 4)}{line[places[-1] + 1 :]}")]


def with_name(line, name):
    """Returns a line with a name as a comment behind it, or above it where there is no room."""
    found = f"{line}  -- {name}"
    return [found] if len(found) <= COLUMNS else [f"    -- {name}", line]


def rows_of(names, width):
    """Returns names in rows of at most a width, with commas between them, or of one name."""
    rows = []
    for name in names:
        if rows and len(", ".join([*rows[-1], name])) <= width:
            rows[-1].append(name)
        else:
            rows.append([name])
    return rows


def in_rows(head, names, tail):
    """Returns lines of names between a head and a tail, each of as many as its columns hold."""
    return [f"{head}{', '.join(row)}{tail}" for row in rows_of(names, COLUMNS - len(head) - len(tail))]


class Imports:
    """What a file names, by module: of specs (`ghost`) and of code."""

    def __init__(self):
        self.ghost, self.code = {}, {}

    def spec(self, module, *names):
        self.ghost.setdefault(module, set()).update(names)

    def use(self, path, *names):
        self.code.setdefault(path, set()).update(names)

    def word(self, name, module=PAGE):
        """Returns a word of the library's specs, which is imported."""
        self.spec(f"{BELOW}{module}", name)
        return name

    def prelude(self, *names):
        self.spec("std.specs.Prelude", *names)

    def spec_lines(self):
        found = sorted(self.ghost.items())
        return [line for module, names in found for line in in_rows(f"use Rattle.{module}.{{", sorted(names), "}")]

    def ghost_lines(self):
        lines = []
        for module, names in sorted(self.ghost.items()):
            found = in_rows(f"ghost use Rattle.{module}.{{", sorted(names), "};")
            if max(map(len, found)) > COLUMNS:
                outer, *inner = module.rsplit(".", 2)
                nested = in_rows(f"  {'.'.join(inner)}.{{", sorted(names), "},")
                found = [f"ghost use Rattle.{outer}.{{", *nested, "};"]
            lines += found
        return lines

    def code_lines(self):
        lines = []
        for path, names in sorted(self.code.items()):
            line = f"use {path}::{min(names)};"
            if len(names) > 1:
                line = f"use {path}::{{{', '.join(sorted(names))}}};"
            elif len(line) > COLUMNS:
                line = f"use {path}::*;"
            lines.append(line)
        return lines


def holder(limits):
    """Returns the number type that holds an INTEGER: the smallest; `Integer` where it may be of any size."""
    if not limits.value or limits.value[2] or None in limits.value[:2]:
        return "Integer"
    low, high, _ = limits.value
    return next((name for name, least, most in HOLDERS if least <= low and high <= most), "Integer")


def number_words(bounds, imports):
    """Returns the words of a value's bounds."""
    if not bounds:
        return imports.word("any")
    low, high, marked = bounds
    if low is None:
        text = f"{imports.word('up_to')} {high}" if high >= 0 else f"{imports.word('up_to_minus')} {-high}"
    elif high is None:
        text = f"{imports.word('from')} {low}" if low >= 0 else f"{imports.word('from_minus')} {-low}"
    else:
        imports.word("◌to◌" if low >= 0 else "minus◌to◌" if high >= 0 else "minus◌to_minus◌")
        text = f"{low} to {high}" if low >= 0 else f"minus {-low} to {high}" if high >= 0 else f"minus {-low} to_minus {-high}"
    return f"({imports.word('extensible')} ({text}))" if marked else f"({text})"


def size_words(bounds, imports):
    """Returns the words of a size's bounds."""
    if not bounds:
        return imports.word("any")
    low, high, marked = bounds
    if high is None:
        text = f"{imports.word('size_from')} {low}"
    else:
        imports.word("size◌to◌")
        text = f"size {low} to {high}"
    return f"({imports.word('extensible')} ({text}))" if marked else f"({text})"


def string_words(limits, imports):
    """Returns the words of a string's characters and size."""
    letters = limits.alphabet
    if letters is None:
        return size_words(limits.size, imports)
    if len(letters) > 2 and letters[-1] - letters[0] + 1 == len(letters):
        text = f"({imports.word('from_to', 'Types')} {len(letters)} {letters[0]})"
    else:
        imports.prelude("[]", "◌∷◌")
        text = f"({' ∷ '.join([*map(str, letters), '[]'])})"
    return f"({imports.word('of_characters')} {text} {size_words(limits.size, imports)})"


def limit_words(of, imports):
    """Returns the words of a type's constraints."""
    if of.kind == "INTEGER":
        return number_words(of.limits.value, imports)
    return string_words(of.limits, imports) if of.kind in LETTERS else size_words(of.limits.size, imports)


def bracketed(text):
    return f"({text})" if " " in text else text


class Schemas:
    """The schemas of items."""

    def __init__(self, items):
        self.items = items

    def of_use(self, use, at, imports):
        """Returns the words of a type where it is used, in the file of the item `at`."""
        item = self.items.of(use)
        if item is None or use.own:
            return self.of_type(use.type, at, imports)
        if (item.crate, item.specs) != (at.crate, at.specs):
            imports.spec(f"{item.crate}.specs.{item.specs}", item.word)
        return item.word

    def of_type(self, of, at, imports):
        if of.kind == "INTEGER":
            name = holder(of.limits)
            return f"{imports.word('integer')} {imports.word('big' if name == 'Integer' else name)} {limit_words(of, imports)}"
        if of.contained:
            return f"{imports.word('containing')} {bracketed(self.of_use(of.contained, at, imports))}"
        if of.kind in SIZED:
            return f"{imports.word(SIZED[of.held_kind])} {limit_words(of, imports)}"
        if of.kind in PLAIN:
            return imports.word(PLAIN[of.kind])
        if of.kind == "ENUMERATED":
            if of.added_items is None:
                return f"{imports.word('enumerated')} {len(of.items)}"
            return f"{imports.word('extensible_enumerated')} {len(of.items)} {len(of.added_items)}"
        word = imports.word("sequence_of" if of.kind == "SEQUENCE OF" else "set_of")
        return f"{word} {limit_words(of, imports)} {bracketed(self.of_use(of.element, at, imports))}"

    def default(self, part, imports):
        """Returns a default in the words of values."""
        of, value = part.use.type, part.normal_default
        if of.kind == "BOOLEAN":
            imports.prelude("true" if value else "false")
            return f"({imports.word('truth')} {'true' if value else 'false'})"
        if of.kind == "INTEGER":
            imports.prelude("pos" if value >= 0 else "negsuc")
            return f"({imports.word('whole')} ({f'pos {value}' if value >= 0 else f'negsuc {-value - 1}'}))"
        if of.kind in ("BIT STRING", "OCTET STRING"):
            names = [{"0": "false", "1": "true"}[bit] for bit in value] if of.kind == "BIT STRING" else [*map(str, value)]
            imports.prelude("[]", *["◌∷◌"] * bool(value), *{"false", "true"} & {*names})
            word = imports.word("bits" if of.kind == "BIT STRING" else "octets")
            return f"({word} {bracketed(' ∷ '.join([*names, '[]']))})"
        if of.kind == "OBJECT IDENTIFIER":
            imports.prelude("[]", "◌∷◌")
            return f"({imports.word('identifier_value')} ({' ∷ '.join([*map(str, value), '[]'])}))"
        if of.kind in TEXTS:
            imports.prelude("codes")
            word = imports.word("octets" if of.kind == "UTF8String" else "characters")
            return f"({word} (codes \"{''.join(map(chr, value))}\"))"
        if of.kind == "SEQUENCE OF":
            imports.prelude("[]")
            return f"({imports.word('list_value')} [])"
        side, items = ("root", of.items) if value in of.items else ("added", of.added_items)
        return f"({imports.word('item')} {imports.word(side)} {items.index(value)})"

    def line(self, part, at, imports):
        """Returns the words of a component."""
        text = self.of_use(part.use, at, imports)
        if part.group is not None:
            return f"{imports.word('group')} {text}"
        if part.presence == "optional":
            return f"{imports.word('optional')} {bracketed(text)}"
        if part.presence == "default":
            return f"{imports.word('default')} {self.default(part, imports)} {bracketed(text)}"
        return text

    def list(self, parts, is_automatic, at, imports):
        """Returns the lines of a list of components, which are in brackets, from the first bracket on."""
        imports.prelude("[]", *["◌∷◌"] * bool(parts))
        if not parts:
            return ["[]"]
        texts = [self.line(part, at, imports) for part in parts]
        if not is_automatic:
            under, tagged = imports.word("under"), imports.word("at")
            texts = [f"{under} ({tagged} {part.tag}) {bracketed(text)}" for part, text in zip(parts, texts)]
        names = [part.name if part.group is None else "[[ ]]" for part in parts]
        lines = [line for text, name in zip(texts, names) for line in with_name(f"    {text} ∷", name)]
        return ["(", *lines, "    [])"]

    def lists(self, item, imports):
        """Returns the lists of an item's components, or alternatives, as a definition."""
        of = item.type
        is_automatic = [part.tag for part in of.all_parts] == [*range(len(of.all_parts))]
        call = imports.word(f"{'' if of.added is None else 'extensible_'}{'automatic' if is_automatic else 'own_tags'}")
        lines = [f"abbrev pub {item.lists} : {imports.word('TypeLists')}", f"{item.lists} = {call}"]
        for parts in [of.parts] if of.added is None else [of.parts, of.added]:
            first, *rest = self.list(parts, is_automatic, item, imports)
            lines = [*lines[:-1], f"{lines[-1]} {first}", *rest]
        return lines

    def lines(self, item, imports):
        """Returns the lines of an item in the file of its module, below its ASN.1."""
        of = item.type
        lines = [f"-- {text}" for text in item.text]
        head = f"abbrev pub {item.word} : {imports.word('Component')}"
        if of.parts is None or item.target:
            text = self.of_use(item.target, item, imports) if item.target else self.of_type(of, item, imports)
            return [*lines, head, f"{item.word} = {text}"]
        name = imports.word({"SEQUENCE": "sequence", "CHOICE": "choice"}[of.kind])
        return [*lines, *self.lists(item, imports), "", head, f"{item.word} = {name} {item.lists}"]

    def file(self, module, items, unjudged=()):
        """Returns the schemas of the items of a module, in the order in which they need one another. At its head stand the
        parts that asn1ct didn't judge."""
        imports, lines, names = Imports(), [], {item.key[1] for item in items}
        for item in items:
            lines += ["", *(piece for line in self.lines(item, imports) for piece in fitted(line))]
        head = f"-- The module {module}: below each definition in ASN.1 stands what the theorem takes it for."
        marks = [f"-- Without asn1ct's judgement: {at}" for at in unjudged if re.match(r"[\w-]+", at)[0] in names]
        return "\n".join([head, *marks, *imports.spec_lines(), *lines, ""])
