"""The crates of protocols: the pages that tools/asn1/protocols writes, and what protocols/ has beside them."""
import hashlib
import os
import shutil
import subprocess

from repository import TOP, Failure, folder_of, read_crates

PROTOCOLS = f"{TOP}/protocols"
CRATES, SUMS = f"{PROTOCOLS}/CRATES", f"{PROTOCOLS}/SUMS"
# What a file's name in protocols/ ends with beside its kind: `rt ci` stops at .rt and .antt files of no crate of crates.txt.
ENDING = ".txt"


class Pages:
    """A folder in which tools/asn1/protocols wrote crates."""

    def __init__(self, modules, folder, names=()):
        """Writes the crates of these protocols, or of all, from the modules that tools/asn1/fetch_modules unpacked."""
        self.folder = folder
        words = [f"{TOP}/tools/asn1/protocols", modules, folder, *names]
        ran = subprocess.run(words, capture_output=True, text=True, check=False)
        if ran.returncode:
            raise Failure(f"tools/asn1/protocols: status {ran.returncode}\n{ran.stdout}{ran.stderr}")
        self.lines = read_crates(f"{folder}/crates.txt")

    def sums_of(self, crate):
        """Returns the checksums of the files of a crate, as they are kept where it is stored."""
        with open(f"{self.folder}/crates/{crate}/asn1.sums", "rb") as it:
            return it.read()

    def sum_of(self, crate):
        """Returns the checksum of these."""
        return hashlib.sha256(self.sums_of(crate)).hexdigest()

    def differences(self):
        """Gives the crates that are written otherwise than they are stored, or than protocols/ has their sums and lines."""
        sums, lines, stored = read_sums(), read_crates(CRATES), read_crates()
        for crate, line in self.lines.items():
            if crate in stored:
                with open(f"{folder_of(crate)}/asn1.sums", "rb") as it:
                    if it.read() != self.sums_of(crate):
                        yield f"crates/{crate} isn't what tools/asn1/protocols writes"
            elif sums.get(crate) != self.sum_of(crate):
                yield f"{crate} is written otherwise than protocols/SUMS says"
            if line != {**stored, **lines}.get(crate):
                yield f"{crate} has other libraries than its line says"
        yield from (f"{crate} isn't written" for crate in sums if crate not in self.lines)

    def write_sums(self):
        """Writes protocols/SUMS, in the order of protocols/CRATES."""
        with open(SUMS, "w", encoding="utf-8") as it:
            it.writelines(f"{self.sum_of(crate)}  {crate}\n" for crate in read_crates(CRATES) if crate in self.lines)

    def put_crate(self, name, to, **how):
        """Puts a crate into a folder as shutil.copytree does: one of crates/, or else its pages and what protocols/ has of
        it, whose files get their own names."""
        if os.path.isdir(folder_of(name)):
            shutil.copytree(folder_of(name), to, **how)
            return
        for source in (f"{self.folder}/crates/{name}", f"{PROTOCOLS}/{name}"):
            if os.path.isdir(source):
                shutil.copytree(source, to, dirs_exist_ok=True)
        for at, _, files in os.walk(to):
            for file in filter(lambda it: it.endswith(ENDING), files):
                os.rename(f"{at}/{file}", f"{at}/{file.removesuffix(ENDING)}")


def read_sums():
    """Returns the checksums of protocols/SUMS, by their crates."""
    with open(SUMS, encoding="utf-8") as it:
        return {crate: digits for digits, crate in (line.split() for line in it)}
