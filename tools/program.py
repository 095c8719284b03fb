"""What the tools run of the programs, and the encodings of vectors/ that they give to it."""
import importlib.machinery
import importlib.util
import os
import re
import subprocess
import sys

from repository import TOP, Failure, folder_of

VARIANTS = ("aper", "uper")
# The files of vectors/, and in which column of each the canonical encoding stands.
CANONICAL = {"canonical.tsv": 2, "spellings.tsv": 3}


def types_and_messages():
    """Returns the types of the first table of docs/TYPES.md, and the messages of the second."""
    with open(f"{TOP}/docs/TYPES.md", encoding="utf-8") as it:
        return [set(re.findall(r"^\| `([\w-]+)` \|", part, re.MULTILINE)) for part in it.read().split("\n## ")]


def known_types():
    """Returns the types that per_check knows."""
    return types_and_messages()[0]


def rows_of(name):
    """Gives the columns of each row of a file of vectors/."""
    with open(f"{TOP}/vectors/{name}", encoding="utf-8") as it:
        for line in it:
            if not line.startswith("#"):
                yield line.rstrip("\n").split("\t")


def built_program(built, name="per_check"):
    """Returns the file of a program: as the gate left it, or else proved and built here."""
    if not built:
        words = ["rt", "run", "--", "uper", "octets"]
        ran = subprocess.run(words, cwd=folder_of(name), input="00\n", capture_output=True, text=True)
        if ran.returncode:
            raise Failure(f"the program isn't built:\n{ran.stderr[-2000:]}")
    program = f"{folder_of(name)}/out/{name}"
    if not os.path.isfile(program):
        raise Failure(f"there is no program {os.path.relpath(program, TOP)}")
    return program


def tables():
    """Returns the tool tools/tables as a module: its messages, and its tables of types."""
    loader = importlib.machinery.SourceFileLoader("tables", f"{TOP}/tools/tables")
    module = importlib.util.module_from_spec(importlib.util.spec_from_loader("tables", loader))
    sys.modules["tables"] = module
    loader.exec_module(module)
    return module
