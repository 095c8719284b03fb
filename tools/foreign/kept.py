"""Answers that take long, kept in a folder by the checksum of what was asked, so that a run that was stopped goes on."""
import hashlib
import os


def written(path, text):
    """Writes a file as a whole, so that one that is there is complete."""
    os.makedirs(os.path.dirname(path), exist_ok=True)
    with open(f"{path}.new", "w", encoding="utf-8") as it:
        it.write(text)
    os.replace(f"{path}.new", path)


def read(path):
    with open(path, encoding="utf-8") as it:
        return it.read()


def sum_of(*texts):
    """Returns the checksum of texts, one after another."""
    found = hashlib.sha256()
    for text in texts:
        found.update(f"{len(text)} {text}".encode())
    return found.hexdigest()


class Kept:
    """The answers in a folder. `asked` is what each of them depends on beside its question."""

    def __init__(self, folder, *asked):
        self.folder, self.asked = folder, asked

    def path(self, *question):
        return f"{self.folder}/{sum_of(*self.asked, *question)[:32]}"

    def lines(self, *question):
        """Returns the lines of an answer, or None where none is kept."""
        path = self.path(*question)
        return read(path).splitlines() if os.path.exists(path) else None

    def keep(self, lines, *question):
        """Keeps an answer, and returns it."""
        written(self.path(*question), "".join(f"{line}\n" for line in lines))
        return lines
