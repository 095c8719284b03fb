"""The static library per_c, and the numbers of its header."""
import re
import subprocess

from repository import Failure, Kit, folder_of, read_crates

PER_C = folder_of("per_c")


def static_library(folder, toolchain=None):
    """Returns the static library, which is proved over the libraries as the gate left them, and compiled by the kit's
    toolchain or another."""
    kit, crates = Kit(), read_crates()
    words = kit.check("per_c", "src/lib.rt")
    words[1] = "build"
    words += ["--crate-type", "staticlib", "--toolchain", toolchain or f"{kit.folder}/toolchain", "--backend", "llvm"]
    library = f"{folder}/libper_c.a"
    words += [*kit.built(crates["per_c"], crates), "-o", library]
    ran = subprocess.run(words, capture_output=True, check=False, cwd=PER_C)
    if ran.returncode:
        raise Failure(f"the static library isn't built:\n{ran.stderr[-2000:].decode(errors='replace')}")
    return library


def header():
    """Returns the text of per.h."""
    with open(f"{PER_C}/include/per.h", encoding="utf-8") as it:
        return it.read()


def pointers():
    """Returns the calls of per.h that have pointers, and how many each has."""
    calls = re.findall(r"^[\w ]+ (per_\w+)\((.*?)\);", header(), re.M | re.S)
    return [(call, parameters.count("*")) for call, parameters in calls if "*" in parameters]


def enumerators(name):
    """Returns the enumerators of an enum of per.h by their numbers."""
    body = re.search(rf"^enum {name} {{\n(.*?)\n}};", header(), re.M | re.S)[1]
    return {int(number): word for word, number in re.findall(r"^ +(PER_\w+) = (\d+)", body, re.M)}
