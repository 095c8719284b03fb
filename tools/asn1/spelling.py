"""The ASN.1 of a definition in a spelling of its own: its names and types, and its constraints as PER sees them, each as one
range. It is made from what was resolved; no text of a module is in it."""
import textwrap

from constraints import LETTERS
from definitions import Bits

WIDE = 112  # columns of a line
STEP = "    "


def bounds(low, high, marked):
    """Spells bounds: a number, or two."""
    low, high = ("MIN" if low is None else str(low)), ("MAX" if high is None else str(high))
    return f"{low if low == high else f'{low}..{high}'}{', ...' if marked else ''}"


def letter(code):
    """Spells a character: as itself, or by the four numbers of X.680 41.8."""
    return f'"{chr(code)}"' if 32 < code < 127 and code != 34 else f"{{0, 0, {code >> 8}, {code & 255}}}"


def letters(alphabet):
    """Spells a permitted alphabet by its runs of characters in a row."""
    runs = []
    for code in alphabet:
        if runs and runs[-1][1] + 1 == code:
            runs[-1][1] = code
        else:
            runs.append([code, code])
    shown = [[letter(code) for code in run] for run in runs]
    return " | ".join(low if low == high else f"{low}..{high}" for low, high in shown)


def constraint(of, indent):
    """Spells the constraints of a type, with a blank before each."""
    found, limits = [], of.limits
    if limits.value:
        found.append(f"({bounds(*limits.value)})")
    if of.kind in LETTERS and limits.alphabet is not None:
        found.append(f"(FROM ({letters(limits.alphabet)}))")
    if limits.size:
        low, high, marked = limits.size
        found.append(f"(SIZE ({bounds(low, high, marked)}))")
    if of.contained:
        found.append(f"(CONTAINING {spelled(of.contained, indent)})")
    return "".join(f" {it}" for it in found)


def named(names):
    return f" {{ {', '.join(f'{name}({number})' for name, number in names.items())} }}" if names else ""


def spelled(use, indent=""):
    """Spells a type where it is used; lines behind the first are indented by `indent`."""
    of = use.type
    if use.name:
        return use.name[1] + (constraint(of, indent) if use.own else "")
    if of.kind in ("SEQUENCE OF", "SET OF"):
        return f"{of.kind[:-3]}{constraint(of, indent)} OF {spelled(of.element, indent)}"
    if of.kind == "ENUMERATED":
        items = [f"{name}({of.names[name]})" for name in of.items]
        more = None if of.added_items is None else ["...", *(f"{name}({of.names[name]})" for name in of.added_items)]
        return f"ENUMERATED {{ {', '.join([*items, *(more or [])])} }}"
    if of.kind in ("SEQUENCE", "CHOICE"):
        lines = [line_of(part, indent + STEP) for part in of.parts]
        if of.added is not None:
            lines += ["...", *(line_of(part, indent + STEP) for part in of.added)]
        inner = ",\n".join(f"{indent}{STEP}{line}" for line in lines)
        return f"{of.kind} {{\n{inner}\n{indent}}}" if lines else f"{of.kind} {{}}"
    if of.kind == "OPEN":
        return of.note
    return of.kind + named(of.names) + constraint(of, indent)


def value(default, of):
    """Spells a default."""
    if of.kind == "OBJECT IDENTIFIER":
        return f"{{{' '.join(map(str, default))}}}"
    if isinstance(default, bool):
        return str(default).upper()
    if isinstance(default, Bits):
        return f"'{default}'B"
    if isinstance(default, bytes):
        return f"'{default.hex().upper()}'H"
    if isinstance(default, tuple):
        return f'"{"".join(map(chr, default))}"'
    return "{}" if default == [] else str(default)


def tag_of(outer, number):
    """Spells a tag that is written, with a blank behind it."""
    return f"[{number}] " if outer == "CONTEXT" else f"[{outer} {number}] "


def line_of(part, indent):
    """Spells a component, an alternative or a group."""
    if part.group is not None:
        return f"[[ {', '.join(line_of(it, indent) for it in part.group)} ]]"
    tag = tag_of(*part.tags[0]) if part.tags else ""
    text = f"{part.name} {tag}{spelled(part.use, indent)}"
    if part.presence == "optional":
        return f"{text} OPTIONAL"
    if part.presence == "default":
        return f"{text} DEFAULT {value(part.default, part.use.type)}"
    return text


def definition(head, use):
    """Returns the lines of a definition under this head."""
    lines = f"{head} ::= {spelled(use)}".split("\n")
    return [text for line in lines for text in wrapped(line)]


def wrapped(line):
    """Returns a line in as many as are needed, those behind the first indented further."""
    indent = line[: len(line) - len(line.lstrip())]
    return textwrap.wrap(line, WIDE, subsequent_indent=indent + STEP, break_long_words=False, break_on_hyphens=False) or [line]
