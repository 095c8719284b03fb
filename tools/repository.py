"""What the tools read of this repository, its crates and the libraries below each, and how they call the prover of `rt`."""
import os
import re
import shutil

TOP = os.path.dirname(os.path.dirname(os.path.realpath(__file__)))


class Failure(Exception):
    """What keeps a tool from judging anything."""


def folder_of(crate):
    return f"{TOP}/crates/{crate}"


def rlib_of(crate):
    return f"{folder_of(crate)}/out/rlib/{crate}.rlib"


def functions_in(crate):
    """Returns the functions of a built library, by the names that the prover prints, or none where its rlib doesn't list them."""
    file = f"{rlib_of(crate)}/toolchain/checked.json"
    if not os.path.isfile(file):
        return []
    with open(file, encoding="utf-8") as it:
        found = re.findall(rf'"(?:part/)?Rattle-{crate}-proofs\.([^"]*)\.Code"', it.read())
    return [f"{crate}::{it.replace('.', '::')}" for it in found]


def read_crates(path=f"{TOP}/crates.txt"):
    """Returns the crates of a list such as crates.txt with the libraries that each names."""
    crates = {}
    with open(path, encoding="utf-8") as it:
        for line in it:
            head, _, names = line.partition("#")[0].partition(":")
            if head.split():
                crates[head.split()[0]] = re.findall(r"\w+", names)
    return crates


def below(names, crates):
    """Returns the repository's libraries among these names and below them, each after those that it uses."""
    found = []
    for name in names:
        if name in crates:
            found += [it for it in [*below(crates[name], crates), name] if it not in found]
    return found


class Kit:
    """The kit that `rt` belongs to: its prover and its libraries."""

    def __init__(self):
        rt = shutil.which("rt")
        if not rt:
            raise Failure("there is no `rt` on the path")
        self.folder = os.path.dirname(os.path.dirname(os.path.realpath(rt)))

    def check(self, crate, root, jobs=1):
        """Returns the command that checks the crate whose root file this is, in so many jobs, less its libraries."""
        words = [f"{self.folder}/bin/rattle", "check", "--crate-name", crate, root, "--jobs", str(jobs)]
        words += ["--antt-project", f"{self.folder}/rattle/logic/antt-project.json"]
        return [*words, "--logic-built", f"{self.folder}/logic_built", "-L", f"dependency={self.folder}/rlibs"]

    def rlib(self, name):
        return f"{name}={self.folder}/rlibs/{name}.rlib"

    def built(self, names, crates):
        """Returns the words that pass on these libraries, as they are built."""
        words = []
        for name in ["std", *names]:
            words += ["--extern", f"{name}={rlib_of(name)}" if name in crates else self.rlib(name)]
        for name in below(names, crates):
            words += ["-L", f"dependency={os.path.dirname(rlib_of(name))}"]
        return words

    def sources(self, names, crates):
        """Returns the words that pass on these libraries and those below them as their sources, of which nothing is proved."""
        found = below(names, crates)
        words = []
        for name in sorted({"core", "std", *names, *(it for name in found for it in crates[name])} - {*crates}):
            words += ["--extern", self.rlib(name)]
        for name in found:
            words += ["--lib", f"{name}:{','.join(['core', 'std', *crates[name]])}={folder_of(name)}/src/lib.rt"]
        return words
