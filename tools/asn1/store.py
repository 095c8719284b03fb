"""Puts crates into a repository: what this tool wrote there it may write again, and what a person changed it leaves."""
import hashlib
import os
import shutil
import subprocess

from notation import Refused

# The file of a crate that says what the tool wrote there, as `sha256sum` does.
SUMS = "asn1.sums"


def read(path):
    with open(path, encoding="utf-8") as file:
        return file.read()


def write(path, text):
    """Writes a text, unless it stands there."""
    os.makedirs(os.path.dirname(path), exist_ok=True)
    if not os.path.exists(path) or read(path) != text:
        with open(path, "w", encoding="utf-8") as file:
            file.write(text)


def sums_of(folder):
    """Returns the checksums of the files below src/ and specs/ of a crate, by their paths in it."""
    found = {}
    for part in ("src", "specs"):
        for at, _, names in os.walk(f"{folder}/{part}"):
            for name in names:
                with open(f"{at}/{name}", "rb") as file:
                    found[os.path.relpath(f"{at}/{name}", folder)] = hashlib.sha256(file.read()).hexdigest()
    return found


def sums_kept(folder):
    """Returns the checksums of what the tool wrote into a crate."""
    lines = read(f"{folder}/{SUMS}").splitlines() if os.path.exists(f"{folder}/{SUMS}") else []
    return {path: digits for digits, path in (line.split("  ", 1) for line in lines)}


def formatted(room, files):
    """Writes files of crates, by crate and path, into a room of their own, and formats them."""
    if not shutil.which("rt"):
        raise Refused("there is no `rt` on the path")
    write(f"{room}/crates.txt", "".join(f"{crate}:\n" for crate in files))
    for crate, texts in files.items():
        for path, text in texts.items():
            write(f"{room}/crates/{crate}/{path}", text)
        how = {"stdout": subprocess.PIPE, "stderr": subprocess.STDOUT, "text": True, "check": False}
        ran = subprocess.run(["rt", "fmt"], cwd=f"{room}/crates/{crate}", **how)
        if ran.returncode:
            raise Refused(f"`rt fmt` refuses the pages of {crate}:\n{ran.stdout.strip()}")


def expect_unchanged(room, top, crates):
    """Refuses where a file of these crates is neither as the tool wrote it nor as it would now."""
    for crate in crates:
        folder = f"{top}/crates/{crate}"
        kept, now = sums_kept(folder), sums_of(f"{room}/crates/{crate}")
        for path, digits in sorted(sums_of(folder).items()):
            if digits not in (kept.get(path), now.get(path)):
                raise Refused(f"crates/{crate}/{path} was written or changed by hand: nothing is written")


def add_lines(path, lines):
    """Puts lines of crates into a list of them: in place of those of the same crates, or at its end."""
    texts = read(path).splitlines() if os.path.exists(path) else []
    for crate, line in lines.items():
        places = [place for place, text in enumerate(texts) if text.split(":")[0].strip() == crate]
        place = places[0] if places else len(texts)
        texts[place : place + 1] = [line]
    write(path, "\n".join([*texts, ""]))


def put(room, top, files, lines):
    """Formats the files of crates, and puts them and their lines into the repository."""
    formatted(room, files)
    expect_unchanged(room, top, files)
    for crate in files:
        folder, new = f"{top}/crates/{crate}", f"{room}/crates/{crate}"
        before, now = sums_of(folder), sums_of(new)
        for path in before.keys() - now.keys():
            os.remove(f"{folder}/{path}")
        for path in (it for it in now if now[it] != before.get(it)):
            os.makedirs(os.path.dirname(f"{folder}/{path}"), exist_ok=True)
            shutil.copyfile(f"{new}/{path}", f"{folder}/{path}")
        write(f"{folder}/{SUMS}", "".join(f"{digits}  {path}\n" for path, digits in sorted(now.items())))
    add_lines(f"{top}/crates.txt", lines)
