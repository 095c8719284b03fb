"""Sets of whole numbers as ranges: pairs of the least and the most, in ascending order, none beside another."""

INFINITE = float("inf")
EVERYTHING = [(-INFINITE, INFINITE)]
NATURAL = [(0, INFINITE)]


def merged(ranges):
    """Returns the ranges in ascending order, none beside another."""
    found = []
    for low, high in sorted(ranges):
        if found and low <= found[-1][1] + 1:
            found[-1] = (found[-1][0], max(found[-1][1], high))
        else:
            found.append((low, high))
    return found


def common(some, others):
    """Returns the ranges of what is in both."""
    pairs = [(max(a[0], b[0]), min(a[1], b[1])) for a in some for b in others]
    return merged([it for it in pairs if it[0] <= it[1]])


def ends_of(ranges):
    """Returns the least and the most of what is in ranges, each None where there is none."""
    low, high = ranges[0][0], ranges[-1][1]
    return None if low == -INFINITE else low, None if high == INFINITE else high
