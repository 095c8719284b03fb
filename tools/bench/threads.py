"""How many messages a second threads take that work at once, each on messages of its own, by the library for C."""
import json
import os

from build import HERE, ran
from inputs import AT_ONCE
from library import PER_C, static_library
from measure import REPEATS, SECONDS
from repository import TOP, Kit

THREADS = (1, 2, 4)
# How many times as long as other programs threads run at least, so that to start them counts for little.
LONGER = 5


def library(folder):
    """Returns the library for C: as `rt lib` left it in its crate, or else built over the libraries below."""
    left = f"{PER_C}/out/libper_c.a"
    return left if os.path.isfile(left) else static_library(folder.path)


def build_program(folder):
    """Builds the program that calls the library for C."""
    words = ["gcc", "-O2", "-pthread", f"-I{PER_C}/include", "-o", f"{folder.path}/bin/threads", f"{HERE}/c/threads.c"]
    ran([*words, library(folder), f"{Kit().folder}/c/liblibc_c.a"], folder.path)


def seconds(folder, message, count, threads):
    """Returns the seconds in which each of so many threads reads a message and writes it again so many times."""
    schema = f"{TOP}/schemas/{message.file}.schema"
    words = [f"{folder.path}/bin/threads", message.variant, str(count), str(threads), message.type, schema]
    return float(ran(words, folder.path, input=f"{message.octets.hex()}\n"))


def enough(folder, message):
    """Returns how many messages one thread needs so long for."""
    count = 64
    while (took := seconds(folder, message, count, 1)) < LONGER * SECONDS:
        count = round(count * min(100, max(2, LONGER * SECONDS / max(took, 1e-6))))
    return count


def run_threads(folder):
    """Takes the most messages a second of each number of threads, by the clock."""
    build_program(folder)
    found = {}
    for message in AT_ONCE:
        count = enough(folder, message)
        for threads in THREADS:
            least = min(seconds(folder, message, count, threads) for _ in range(REPEATS))
            found.setdefault(message.title, []).append(threads * count / least)
            print(f"{message.title}, {threads} at once: {threads * count / least:,.0f} a second", flush=True)
    folder.written("threads.json", json.dumps(found, indent=1))
