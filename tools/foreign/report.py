"""What came of protocols: which differences are explained, and the figures."""
import collections
import os
import re
from dataclasses import dataclass

from hostile import BIT
from judge import FIGURES, UNCHANGED
from repository import Failure

EXPLAINED = f"{os.path.dirname(os.path.realpath(__file__))}/explained.tsv"
SECTION = re.compile(r"X\.6(80|90|91) \d+(\.\d+)*")
# How many differences of one kind and type are told, and how many columns a table has.
TOLD, COLUMNS = 3, 7


@dataclass(frozen=True)
class Row:
    """A row of explained.tsv: patterns of a whole difference, part by part, of a part of its text, and what explains it."""
    line: int
    protocol: str
    variant: str
    what: str
    type: str
    text: str
    section: str
    why: str

    def is_of(self, what):
        """Returns whether it explains differences of a kind."""
        return bool(re.fullmatch(self.what, what))

    def explains(self, it):
        wholes = ((self.protocol, it.protocol), (self.variant, it.variant), (self.what, it.what), (self.type, it.type))
        return all(re.fullmatch(pattern, of) for pattern, of in wholes) and bool(re.search(self.text, it.text))


def rows():
    """Returns the rows of explained.tsv. Each has to name a section."""
    found = []
    with open(EXPLAINED, encoding="utf-8") as it:
        for number, line in enumerate(it, 1):
            columns = line.rstrip("\n").split("\t")
            if line.startswith("#"):
                continue
            if len(columns) != 7 or not all(columns) or not SECTION.fullmatch(columns[5]):
                raise Failure(f"explained.tsv, line {number}, isn't a row of seven columns with a section")
            found.append(Row(number, *columns))
    return found


class Report:
    """What is told of protocols, one after another."""

    def __init__(self):
        self.rows, self.counts, self.unexplained = rows(), collections.Counter(), collections.Counter()
        self.figures = {}

    def add(self, judge, folder):
        """Adds a protocol: prints some of the differences that no row explains, and writes all into differences.tsv."""
        told = collections.Counter()
        with open(f"{folder}/differences.tsv", "w", encoding="utf-8") as file:
            for it in judge.differences:
                row = next((row for row in self.rows if row.explains(it)), None)
                self.counts[row] += 1
                self.unexplained[it.protocol, it.variant] += row is None
                told[it.what, it.type] += row is None
                if row is None and told[it.what, it.type] <= TOLD:
                    print(f"{it.protocol} {it.variant} {it.what}: {it.type}: {it.text[:600]}")
                file.write("\t".join([it.variant, it.what, it.type, str(row.line if row else ""), it.text, "\n"]))
        for variant, figures in judge.figures.items():
            total = {"differences": sum(it.variant == variant for it in judge.differences)}
            total["explained"] = total["differences"] - self.unexplained[judge.protocol.name, variant]
            self.figures[judge.protocol.name, variant] = {**figures, **total}

    def idle(self, names):
        """Returns the rows that explain nothing though all protocols were judged, of these names, that they are for;
        without those of changed octets, where none were changed."""
        judged = {protocol for protocol, _ in self.figures}
        is_changed = any(BIT in figures for figures in self.figures.values())
        idle = [row for row in self.rows if not self.counts[row] and (is_changed or any(map(row.is_of, UNCHANGED)))]
        fits = {row: {name for name in names if re.fullmatch(row.protocol, name)} for row in idle}
        return [row for row, fit in fits.items() if fit and fit <= judged]

    def table(self, columns):
        """Prints columns of the figures, and their sums, in which a type counts once for both variants."""
        print(f"\n| protocol | variant | {' | '.join(columns)} |\n|---|---|{'---|' * len(columns)}")
        sums = {it: sum(figures.get(it, 0) for figures in self.figures.values()) for it in columns}
        types = {protocol: figures.get("types", 0) for (protocol, _), figures in self.figures.items()}
        sums["types"] = sum(types.values())
        for (protocol, variant), figures in [*self.figures.items(), (("all", ""), sums)]:
            print(f"| {protocol} | {variant} | {' | '.join(f'{figures.get(it, 0):,}' for it in columns)} |")

    def end(self, names):
        """Prints the figures, and returns the status. `names` are those of all protocols that there are."""
        there = {it for figures in self.figures.values() for it in figures}
        columns = [it for it in (*FIGURES, "differences", "explained") if it in there]
        for start in range(0, len(columns), COLUMNS):
            self.table(columns[start : start + COLUMNS])
        print("\n| differences | explained by | |\n|---|---|---|")
        for row in filter(self.counts.get, self.rows):
            print(f"| {self.counts[row]:,} | {row.section} | {row.why} |")
        idle = self.idle(names)
        for row in idle:
            print(f"explained.tsv, line {row.line}, explains nothing: {row.why}")
        explained = sum(self.counts[row] for row in self.rows)
        print(f"\nforeign: {explained + self.counts[None]} differences, {explained} explained, {self.counts[None]} not")
        is_judged = sum(it.get("values", 0) for it in self.figures.values())
        return 1 if self.counts[None] or idle or not is_judged else 0
