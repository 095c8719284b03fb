"""Tags of components and alternatives (X.680 25, X.691 23.5)."""
from notation import Refused

UNIVERSAL = {
    "BOOLEAN": 1, "INTEGER": 2, "BIT STRING": 3, "OCTET STRING": 4, "NULL": 5, "OBJECT IDENTIFIER": 6, "ENUMERATED": 10,
    "UTF8String": 12, "SEQUENCE": 16, "SEQUENCE OF": 16, "SET": 17, "SET OF": 17, "NumericString": 18, "PrintableString": 19,
    "TeletexString": 20, "IA5String": 22, "UTCTime": 23, "GeneralizedTime": 24, "GraphicString": 25, "VisibleString": 26,
    "GeneralString": 27, "BMPString": 30, "DATE": 31,
}
CLASSES = ("UNIVERSAL", "APPLICATION", "CONTEXT", "PRIVATE")
MOST = 2**32 - 1


def is_by_place(parts, is_automatic):
    """Returns whether tags are automatic (X.680 25.3): none is written here. Those of COMPONENTS OF don't count."""
    written = [it for part in parts for it in (part.group or [part])]
    return is_automatic and not any(it.tags and not it.is_taken for it in written)


def numbered(root, added, is_automatic):
    """Gives parts the numbers of their tags: those that are written, where each part has one of the context; else its place,
    as where tags are automatic (X.680 25.7). PER sees no tag, but in the order of a CHOICE, which they are in."""
    flat = [*root, *(added or [])]
    by_place = is_by_place(flat, is_automatic)
    for parts in [flat, *(part.group or [] for part in flat)]:
        for number, part in enumerate(parts):
            part.tag, part.outer = number, ("CONTEXT", number) if by_place else outermost(part)
    if not by_place and all(part.tags and part.tags[0][0] == "CONTEXT" for part in flat):
        for part in flat:
            part.tag = part.tags[0][1]
            if part.tag > MOST:
                raise Refused(f"the tag of {part.name} is past 32 bits")


def in_order(root, is_automatic):
    """Returns the root alternatives of a CHOICE in the order of their tags."""
    return root if is_by_place(root, is_automatic) else sorted(root, key=lambda part: rank(outermost(part)))


def outermost(part):
    """Returns the class and number of a part's outermost tag: of an untagged CHOICE the smallest, or None where there is none."""
    of, tags = part.use and part.use.type, part.tags or part.use and part.use.tags
    if tags:
        return tags[0]
    if of and of.kind == "CHOICE" and of.parts:
        return min((it.outer for it in of.parts), key=rank)
    return ("UNIVERSAL", UNIVERSAL[of.kind]) if of and of.kind in UNIVERSAL else None


def rank(tag):
    """Returns by what a tag is sorted (X.680 8.6)."""
    if tag is None:
        raise Refused("an alternative has no tag by which it could be sorted")
    return CLASSES.index(tag[0]), tag[1]
