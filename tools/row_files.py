"""The rows of rows/, which rows/README.md describes."""
import glob
import os
import re

from repository import TOP, Failure

ESCAPES = {r"\n": b"\n", r"\r": b"\r", r"\0": b"\0"}
# The parts of a text: an escape, a part so many times, and the rest.
PART = re.compile(r"(?P<escape>\\[nr0]|\\x[0-9a-f]{2})|\{(?P<part>[^\\{}*]+)\*(?P<times>[0-9]+)\}|(?P<plain>[ -\[\]-~])")


def octets_of(text):
    """Returns the octets that a text of a row stands for."""
    octets, end = [], 0
    while end < len(text):
        part = PART.match(text, end)
        if not part:
            raise Failure(f"there is no such notation: {text[end:end + 40]}")
        end = part.end()
        escape, repeated, times, plain = part.groups()
        if repeated:
            octets.append(repeated.encode() * int(times))
        elif escape:
            octets.append(ESCAPES.get(escape) or bytes.fromhex(escape[2:]))
        else:
            octets.append(plain.encode())
    return b"".join(octets)


def row_of(line):
    """Returns the words of a row, its input, and its answer as `run` gives it."""
    columns = line.split("\t")
    if len(columns) == 4:
        columns.append("")
    if len(columns) != 5 or columns[3] not in ("0", "1", "2"):
        raise Failure(f"this is no row: {line[:80]}")
    words, read, output, status, told = columns
    return words.split(), octets_of(read), (octets_of(output), int(status), octets_of(told))


def rows(folder="rows"):
    """Gives each row of each file of a folder: where it stands, its words, its input and its answer."""
    files = sorted(glob.glob(f"{TOP}/{folder}/*.tsv"))
    if not files:
        raise Failure("there are no files of rows")
    for file in files:
        with open(file, encoding="ascii") as it:
            found = [(n, line) for n, line in enumerate(it.read().split("\n"), 1) if line and not line.startswith("#")]
        if not found:
            raise Failure(f"{os.path.relpath(file, TOP)} has no rows")
        for number, line in found:
            yield f"{os.path.basename(file)}:{number}", *row_of(line)
