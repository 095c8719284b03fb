"""The text of pages: what stands between two @ is put in by pages.py, and a line of such a name alone falls out where it is
empty."""
import re

# The first line of each file, behind the sign of a comment.
HEAD = "Written by tools/asn1/compile: change the ASN.1, not this file."

RECORD = """
@doc@
@derives@
pub struct @rust@ {
@fields@
}

@letters@
macro_rules! components { ($to:ident $($with:ident)*) => { $to! { [$($with)*]
@lines@
} }; }

const FIELDS: FieldLists = components!(fields);

const BOUNDS: Bounds = components!(bounds);

impl Components for @rust@ {
    const COMPONENTS: FieldLists = FIELDS;

    ghost COMPONENTS = { fields_of @lists@ };

    ghost components = { (@lists@, refl) };

    ghost contents = { λ @over@.
@slots@
        [] };

@added@
@depth@
}

impl Record for @rust@ {
    fn encode_components<E: Encoder>(&self, encoder: &mut E) -> Result<(), E::Error> {
        components!(encode_components self encoder)
    }

    fn decode_components<D: Decoder>(decoder: &mut D) -> Result<Self, D::Error> {
        components!(decode_components decoder)
    }
}
"""

CHOICE = """
@doc@
@derives@
pub enum @rust@ {
@variants@
}

@letters@
macro_rules! alternatives { ($to:ident $($with:ident)*) => { $to! { [$($with)*]
@lines@
} }; }

const VARIANTS: VariantLists = alternatives!(variants);

const BOUNDS: Bounds = alternatives!(alternative_bounds);

impl OfKind for @rust@ {
    type Kind = ChoiceKind;
}

impl Alternatives for @rust@ {
    const ALTERNATIVES: VariantLists = VARIANTS;

    ghost ALTERNATIVES = { variants_listed @lists@ };

    ghost alternatives = { (@lists@, refl) };

    ghost chosen = { elim [
@chosen@
    ] };

@depth@
    ghost are_variants = { record { distinct = refl; few = refl } };
}

impl CodedAlternatives for @rust@ {
    fn place(&self) -> Place {
        alternatives!(place_of_alternative self)
    }

    fn encode_alternative<E: Encoder>(&self, encoder: &mut E) -> Result<(), E::Error> {
        alternatives!(encode_alternative self encoder)
    }

    fn decode_alternative<D: Decoder>(decoder: &mut D, place: Place) -> Result<Self, D::Error> {
        alternatives!(decode_alternative decoder place)
    }
}

impl ByKind for @rust@ {}
"""

ENUMERATED = """
@doc@
#[derive(Clone, Copy, Debug, PartialEq, Eq)]
pub enum @rust@ {
@variants@
}

macro_rules! items { ($to:ident $($with:ident)*) => { $to! { [$($with)*]
@lines@
} }; }

impl OfKind for @rust@ {
    type Kind = EnumeratedKind;
}

impl Items for @rust@ {
    const ITEMS: ItemLists = items!(item_lists);

    ghost ITEMS = { @counts@ };

    ghost item = { elim [
@items@
    ] };

    fn place(&self) -> Place {
        items!(place_of_item self)
    }

    fn at(place: Place) -> Option<@rust@> {
        items!(item_at place)
    }
}

impl ByKind for @rust@ {}
"""

# More items than a list has, each at its place.
WIDE_ENUMERATED = """
@doc@
#[derive(Clone, Copy, Debug, PartialEq, Eq)]
pub enum @rust@ {
@variants@
}

const ITEMS: ItemLists = ItemLists {
    counts: ItemCounts { roots: @roots@, addeds: @addeds@ },
    identifiers: &[
@identifiers@
    ],
};

impl OfKind for @rust@ {
    type Kind = EnumeratedKind;
}

impl Items for @rust@ {
    const ITEMS: ItemLists = ITEMS;

    ghost ITEMS = { @counts@ };

    ghost item = { elim [
@items@
    ] };

    fn place(&self) -> Place {
        match self {
@places@
        }
    }

    fn at(place: Place) -> Option<@rust@> {
        match place {
@at@
            _ => None,
        }
    }
}

impl ByKind for @rust@ {}
"""

LIMITS = """
/// The constraints of `@rust@`.
#[derive(Clone, Copy, Debug, Drop, PartialEq, Eq)]
pub struct @limits@;

const @constant@: &[Constraint] = constraints!(@bounds@);

impl Limits for @limits@ {
    const LIMITS: Constraints<'static> = Constraints(@constant@);

    ghost LIMITS = { @words@ };
}
"""


def headed(path, text):
    """Returns the text of the file of this path under its first line."""
    return f"{'--' if path.endswith('.antt') else '//'} {HEAD}\n{text}"


def filled(template, **values):
    """Returns the lines of a template with what is put in: a text, or lines."""
    texts = {name: value if isinstance(value, str) else "\n".join(value) for name, value in values.items()}
    lines = []
    for line in template.strip("\n").split("\n"):
        alone = re.fullmatch(r"@(\w+)@", line)
        if not alone or texts[alone[1]]:
            lines += re.sub(r"@(\w+)@", lambda found: texts[found[1]], line).split("\n")
    return [line for number, line in enumerate(lines) if line or number and lines[number - 1]]
