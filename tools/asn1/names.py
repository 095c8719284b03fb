"""Names: those of ASN.1 as Rattle and antt write them."""
import re

# The words of Rattle and of antt, and those names that both give to what stands in every page.
RUST = frozenset("""as async await become box break const continue crate do dyn else enum extern false final fn
for gen if impl in let loop macro match mod move mut override priv pub ref return self static struct super trait
true try type typeof unsafe unsized use virtual where while yield union ghost ensures requires prove old new now
result rt""".split())
ANTT = frozenset("""data record deriving module where use mod pub package open as unfoldable abbrev axiom unfold
unfolding ruleset mutual infix infixl infixr elim let in do codes negsuc rw simp search grind grw cc omega hlevel assumption
first_of cap yes no refl tt absurd x n zero suc pos max length sum map fst snd""".split())
# The words that a page or a schema names itself.
WORDS = frozenset("""automatic automatic_from own_tags extensible_own_tags extensible_automatic boolean null integer bit_string named_bits octet_string enumerated
extensible_enumerated utf8_string numeric_string printable_string ia5_string visible_string bmp_string sequence
sequence_of choice set set_of object_identifier date utc_time
generalized_time teletex_string graphic_string general_string open_type optional default group at under any from
from_minus up_to up_to_minus size_from size_up_to extensible of_characters from_to u8 u16 u32 u64 i8 i16 i32 i64
i128 big universal simple chosen chosen_behind whole truth nothing item root added octets bits characters code
day alternative fields_in fields_of parts_of variants_listed all_items extensible_items slot_of slot_levels deeper_of
record_value list_value to minus size to_minus components contents containing""".split())
# The names that a page's own text has from the library, and from Rust.
TAKEN = """Alternatives AsnType Bounded Bounds ByKind ChoiceKind Class CodedAlternatives Components Constrained
Constraint Constraints Constructed Decode Decoder Encode Encoder EnumeratedKind Extensible
Field FieldLists Fields Identifier ItemCounts ItemLists Items Limits OfKind Place Presence Record Tag TagTree VariantLists Variants
Any BitString NamedBits OctetString Integer Ia5String VisibleString PrintableString NumericString BmpString Utf8String
TeletexString GraphicString GeneralString ObjectIdentifier UtcTime GeneralizedTime Date SetOf SetKind
SetComponents SetRecord Contains EmptyList Item Octets Text Utf8Text Result Ok Err Vec String Box Drop Clone Copy Debug
Eq PartialEq Self""".split()
# The parameters of a page's functions are D and E.
TAKEN += ["Arcs", "Bits", "D", "E", "Option"]
NOT_ALONE = ("Self", "None", "Some", "Ok", "Err", "Vec", "Option", "Box", "Type")
# The toolchain makes names of files of those of types.
LONGEST = 56


def words_of(name):
    """Returns the words of a name: at dashes and underscores, and where a capital begins one. Of capitals in a row the first
    may be a small letter (`pLMNIdentity`)."""
    found = []
    for piece in re.split(r"[-_./]", name):
        found += re.findall(r"^[a-z][A-Z]+(?![a-z])|[A-Z]{2,}s(?![a-z])|[A-Z]+(?![a-z])\d*|[A-Z]?[a-z]+\d*|[A-Z][a-z0-9]*|\d+", piece) or [piece]
    return [word for word in found if word]


def joined(words):
    """Returns words in a row, an underscore where two digits would meet."""
    text = ""
    for word in words:
        text += ("_" if text and text[-1].isdigit() and word[0].isdigit() else "") + word
    return text


def upper_camel(name):
    words = words_of(name)
    text = joined(word[0].upper() + (word[1:].lower() if re.search("[A-Z]", word[1:]) else word[1:]) for word in words)
    return f"{text}_" if text in NOT_ALONE else text


def snake(name, taken=frozenset()):
    text = "_".join(word.lower() for word in words_of(name))
    return f"{text}_" if text in RUST or text in ANTT or text in taken else text


def spec_word(name):
    return snake(name, WORDS)


def constant(name):
    return "_".join(word.upper() for word in words_of(name))


def shorter(name, taken, spell):
    """Returns a name by a path in a spelling, without as many of its first steps as make it short."""
    steps, found = name.split("/"), spell(name)
    while len(found) > LONGEST and len(steps) > 1:
        steps = steps[1:]
        if spell("/".join(steps)) not in taken:
            found = spell("/".join(steps))
    return found


def apart(names, spell):
    """Returns the spelling of each name, none twice."""
    found = {}
    for name in names:
        text = spell(name)
        while text in found.values():
            text += "_"
        found[name] = text
    return found


def untaken(text, taken):
    """Returns a text, with a number behind it where it is taken, which it is from now on."""
    found, number = text, 2
    while found in taken:
        found, number = f"{text}_{number}", number + 1
    taken.add(found)
    return found


def grouped(number):
    """Returns a number as Rust writes it, its digits in groups where there are more than four."""
    text = f"{abs(number):_}" if abs(number) > 9999 else str(abs(number))
    return f"-{text}" if number < 0 else text
