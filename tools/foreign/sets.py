"""Constraints at random, each in two spellings: as people write them, and as the one range or alphabet that PER sees of them
(X.691 10.3). What PER sees is counted out here, number by number where sets have gaps."""
from dataclasses import dataclass

# Bounds where the form of an encoding changes.
EDGES = (0, 1, 2, 7, 8, 127, 128, 255, 256, 257, 65535, 65536, 65537, 2**31, 2**32, 2**40, 2**63 - 1)
# Numbers in which sets with gaps lie, which are counted one by one.
SMALL = 60
LETTERS = {
    "IA5String": "".join(chr(code) for code in range(33, 127) if chr(code) not in '"\\'),
    "VisibleString": "".join(chr(code) for code in range(33, 127) if chr(code) not in '"\\'),
    "PrintableString": "ABCDEFGHIJKLMNOPQRSTUVWXYZabcdefghijklmnopqrstuvwxyz0123456789",
    "NumericString": "0123456789", "BMPString": "ABCDEFGHIJKLMNOPQRSTUVWXYZabcdefghijklmnopqrstuvwxyz",
}


@dataclass(frozen=True)
class Spelled:
    """A constraint as it is written, with a blank before it, and as PER sees it."""
    written: str = ""
    seen: str = ""


def text_of(low, high):
    """Returns the text of a range, or of one number."""
    if low == high:
        return str(low)
    return f"{'MIN' if low is None else low}..{'MAX' if high is None else high}"


class Sets:
    """Makes constraints by a random generator. `included` are names of types of numbers with a range, which may be included."""

    def __init__(self, random):
        self.random, self.included = random, []

    def range(self):
        """Returns the ends of a range, of which one may be none."""
        sign = self.random.choice((1, 1, -1))
        low, high = sorted(sign * self.random.choice(EDGES) + self.random.choice((0, 0, -1)) for _ in range(2))
        if self.random.random() < 0.15:
            return (low, None) if self.random.random() < 0.5 else (None, high)
        return low, high

    def pieces(self, least, excepts):
        """Returns the texts of small ranges, and the numbers in them."""
        found, numbers = [], set()
        for _ in range(self.random.choice((1, 2, 2, 3))):
            low = self.random.randint(least, SMALL)
            high = low + self.random.choice((0, 0, 1, 5, 9))
            found.append(self.piece(low, high, excepts))
            numbers |= set(range(low, high + 1))
        return found, numbers

    def piece(self, low, high, excepts):
        """Returns one of the spellings of a range; EXCEPT in a size is one at which asn1ct ends."""
        how = self.random.random()
        if how < 0.15:
            return f"{low}..<{high + 1}"
        if how < 0.25 and low > 0:
            return f"{low - 1}<..{high}"
        if how < 0.35 and excepts:
            return f"{text_of(low, high)} EXCEPT {self.random.randint(low, high)}"
        return text_of(low, high)

    def gaps(self, least=0, excepts=False):
        """Returns the text of a set with gaps, and its numbers."""
        found, numbers = self.pieces(least, excepts)
        if self.random.random() < 0.2:
            low, high = min(numbers), max(numbers) + 3
            return f"({' | '.join(found)}) ^ {low}..{high}", numbers
        return " | ".join(found), numbers

    def marker(self, written, seen):
        """Puts an extension marker behind a constraint, or none."""
        how = self.random.random()
        if how > 0.3:
            return f"({written})", f"({seen})"
        more = f", {SMALL * 3}..{SMALL * 4}" if how < 0.1 else " ! 5" if how < 0.15 else ""
        return f"({written}, ...{more})", f"({seen}, ...)"

    def numbers(self, least=-20):
        """Returns a constraint of an INTEGER."""
        how = self.random.random()
        if how < 0.1:
            return Spelled()
        if how < 0.45:
            low, high = self.range()
            if (low, high) == (None, None):
                return Spelled()
            written, seen = self.marker(text_of(low, high), text_of(low, high))
            return Spelled(f" {written}", f" {seen}")
        if how < 0.55 and self.included:
            name, seen = self.random.choice(self.included)
            return Spelled(f" ({self.random.choice(('INCLUDES ', ''))}{name})", seen)
        text, numbers = self.gaps(least, excepts=True)
        if how > 0.8:
            return self.narrowed(text, numbers, "({})", "({})")
        written, seen = self.marker(text, text_of(min(numbers), max(numbers)))
        return Spelled(f" {written}", f" {seen}")

    def narrowed(self, text, numbers, written, seen):
        """Returns a set with gaps under a further constraint, which one number of it meets at least."""
        kept = self.random.choice(sorted(numbers))
        low, high = max(0, kept - self.random.randint(0, 8)) if kept >= 0 else kept, kept + self.random.randint(0, 8)
        left = {it for it in numbers if low <= it <= high}
        return Spelled(f" {written.format(text)} {written.format(text_of(low, high))}", f" {seen.format(text_of(min(left), max(left)))}")

    def sizes(self, of_list=False):
        """Returns a constraint of a size; a list that is written there has one alone."""
        how = self.random.random()
        if how < 0.2:
            return Spelled()
        if how < 0.5:
            low = self.random.choice((0, 1, 2, 3, 16, 17))
            high = self.random.choice((None, low, low + 1, low + 7, 64, 255, 70000))
            if (low, high) == (0, None) or high is not None and high < low:
                return Spelled()
            return self.size(text_of(low, high), text_of(low, high))
        text, numbers = self.gaps()
        if how > 0.8 and not of_list:
            return self.narrowed(text, numbers, "(SIZE ({}))", "(SIZE ({}))")
        return self.size(text, text_of(min(numbers), max(numbers)))

    def size(self, text, seen):
        how = self.random.random()
        if how < 0.2:
            return Spelled(f" (SIZE ({text}, ...))", f" (SIZE ({seen}, ...))")
        if how < 0.3:       # the marker of the whole constraint
            return Spelled(f" (SIZE ({text}), ...)", f" (SIZE ({seen}, ...))")
        return Spelled(f" (SIZE ({text}))", f" (SIZE ({seen}))")

    def letters(self, of):
        """Returns the text of a permitted alphabet and of the characters that it has."""
        every = LETTERS[of]
        found, texts = set(), []
        for _ in range(self.random.choice((1, 1, 2))):
            start = self.random.randrange(len(every) - 1)      # of one character asn1ct makes no program
            row = every[start : start + self.random.randint(2, 12)]
            runs = "".join(chr(code) for code in range(ord(row[0]), ord(row[-1]) + 1))
            if runs == row and self.random.random() < 0.6:
                texts.append(f'"{row[0]}".."{row[-1]}"')
            else:
                texts.append(f'"{row}"')
            found |= set(row)
        return " | ".join(texts), "".join(sorted(found))

    def strings(self, of):
        """Returns a constraint of a string of characters."""
        size, how = self.sizes(), self.random.random()
        if how < 0.4:
            return size
        text, letters = self.letters(of)
        seen = f' (FROM ("{letters}"))'
        if how < 0.5:       # a marker: the alphabet isn't visible; behind it asn1ct reads no further constraint right
            return Spelled(self.random.choice((f" (FROM ({text}), ...)", f" (FROM ({text}, ...))")))
        if how < 0.7 and size.written.count("(SIZE") == 1 and size.written.endswith("))"):
            return Spelled(f" ({size.written[2:-1]} ^ FROM ({text}))", f"{seen}{size.seen}")
        if size.written.endswith("), ...)"):     # of two constraints asn1ct takes the marker of the last for both
            size = Spelled(size.seen, size.seen)
        return Spelled(f" (FROM ({text})){size.written}", f"{seen}{size.seen}")
