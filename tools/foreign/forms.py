"""Forms of types that asn1ct encodes otherwise than X.691 has it. Differences of a type in which one stands are told with its
name, by which rows of explained.tsv explain them."""

# The least upper bound of a size that is none (X.691 11.9.4.1).
NO_BOUND = 65536


def is_size_without_end(of):
    if not of.limits.size:
        return False
    _, most, is_marked = of.limits.size
    return is_marked and (most is None or most >= NO_BOUND)


def is_string_from_nothing(of):
    is_list = of.kind in ("SEQUENCE OF", "SET OF")
    return not is_list and bool(of.limits.size) and of.limits.size[0] == 0 and of.limits.size[1] is not None


def has_empty_addition(of):
    return any(part.group is None and part.use.type.limits.size == (0, 0, False) for part in of.added or [])


def is_marked_with_a_gap(of):
    return bool(of.limits.value) and of.limits.value[2] and len(of.limits.numbers or ()) > 1


# Those of a size are of strings and lists, SIZE (0..n) of strings alone; SIZE (0) is that of an addition.
FORMS = {
    "SIZE (0..n)": is_string_from_nothing, "SIZE (n..MAX, ...)": is_size_without_end,
    "..., SIZE (0)": has_empty_addition, "(a | b, ...)": is_marked_with_a_gap,
}


def forms_of(of):
    """Returns the names of the forms that stand in a type, which may hold itself."""
    found, seen, left = set(), set(), [of]
    while left:
        of = left.pop()
        if id(of) not in seen:
            seen.add(id(of))
            found |= {name for name, is_it in FORMS.items() if is_it(of)}
            uses = [*(part.use for part in of.all_parts), *filter(None, (of.element, of.contained))]
            left += [use.type for use in uses]
    return found


def in_words(of):
    """Returns these as words behind what is told of a type."""
    found = sorted(forms_of(of))
    return f"; it has {', '.join(found)}" if found else ""
