"""Times the programs, counts their instructions, and takes the memory of long values."""
import concurrent.futures
import itertools
import json
import os
import re
import resource
import statistics
import subprocess

from build import SIZES, VARIANTS, knows, programs
from inputs import MESSAGES, lines
from repository import TOP, Failure

REPEATS = int(os.environ.get("REPEATS", "3"))
SECONDS = float(os.environ.get("SECONDS", "0.1"))
WORKERS = int(os.environ.get("WORKERS", os.cpu_count()))
# Into the same buffer, into a new one, back.
OPERATIONS = ("enc", "new", "dec")
# In APER only what Erlang has too, save of messages.
IN_APER = ("new", "dec")


def run(folder, name, variant, operation, kind, count):
    """Returns the seconds of processor time that a program takes in all."""
    words = folder.program(name, variant, operation, kind, count)
    with open(folder.input(variant, kind), encoding="utf-8") as line:
        started = subprocess.Popen(words, stdin=line, stdout=subprocess.PIPE, text=True)
        started.stdout.read()
        _, status, took = os.wait4(started.pid, 0)
    started.returncode = os.waitstatus_to_exitcode(status)
    started.stdout.close()
    if started.returncode:
        raise Failure(f"{' '.join(words)}: status {started.returncode}")
    return took.ru_utime + took.ru_stime


class Cell:
    """An operation of a program on a kind."""

    def __init__(self, folder, name, variant, operation, kind):
        self.folder, self.name = folder, name
        self.words = (variant, "enc" if name == "erlang" and operation == "new" else operation, kind)
        self.start = 0.0
        if name != "erlang":
            self.start = min(run(folder, name, *self.words, 0) for _ in range(3))
        self.count = 1

    def seconds(self):
        """Returns the processor time of `count` operations alone: Erlang tells it itself, in milliseconds."""
        if self.name == "erlang":
            return int(self.folder.erlang(*self.words, self.count).split()[0]) / 1000
        return max(0.0, run(self.folder, self.name, *self.words, self.count) - self.start)

    def settle(self, guess):
        """Finds how many operations take SECONDS."""
        self.count = max(1, guess)
        while True:
            took = min(self.seconds() for _ in range(2))
            if took >= SECONDS / 4:
                self.count = max(1, round(self.count * SECONDS / took))
                return
            self.count = round(self.count * min(100, max(2, SECONDS / 2 / max(took, 1e-6))))

    def nanoseconds(self):
        return self.seconds() * 1e9 / self.count


def rows():
    """Returns the rows: a variant, an operation and a kind, with the programs that have it."""
    for variant, operation in itertools.product(VARIANTS, OPERATIONS):
        names = [name for name, it in programs() if it == variant and (name != "erlang" or operation != "enc")]
        for kind in lines(variant):
            if variant == "uper" or operation in IN_APER or kind in MESSAGES:
                yield variant, operation, kind, [it for it in names if knows(it, kind)]


def time_rows(folder):
    """Times the programs of each row one after the other, REPEATS times; a ratio is the median of those of each turn."""
    times = {}
    for variant, operation, kind, names in rows():
        cells, guess = [], 1
        for name in names:
            cells.append(Cell(folder, name, variant, operation, kind))
            cells[-1].settle(guess)
            guess = max(1, cells[-1].count // 8)
        turns = [[cell.nanoseconds() for cell in cells] for _ in range(REPEATS)]
        row = {}
        for at, name in enumerate(names):
            ratio = statistics.median(turn[0] / max(turn[at], 1e-3) for turn in turns)
            row[name] = (statistics.median(turn[at] for turn in turns), ratio)
        times[f"{variant} {operation} {kind}"] = row
        print(f"{variant} {operation} {kind}", *(f"{it} {ns:.1f} ns {ratio:.2f}" for it, (ns, ratio) in row.items()), flush=True)
    folder.written("times.json", json.dumps(times, indent=1))


# How many operations callgrind sees of a kind.
COUNTED = {"octets1m": 1, "behind1m": 1, "octets1k": 50, "behind1k": 50, "visible1k": 50, "list": 20}


# The programs whose instructions are counted.
COUNTED_PROGRAMS = {"uper": ("rasn", "table", "asn1c", "c"), "aper": ("rasn", "table", "osmocom", "c")}


def functions(folder, name, variant, operation, kind, count):
    """Returns the instructions of each function of a run, its own alone."""
    file = f"{folder.path}/profiles/{name}.{variant}.{operation}.{kind}.{count}"
    words = ["valgrind", "--tool=callgrind", f"--callgrind-out-file={file}", *folder.program(name, variant, operation, kind, count)]
    with open(folder.input(variant, kind), encoding="utf-8") as line:
        done = subprocess.run(words, stdin=line, capture_output=True, text=True)
    if done.returncode:
        raise Failure(f"{' '.join(words)}: status {done.returncode}")
    words = ["callgrind_annotate", "--threshold=100", "--auto=no", file]
    text = subprocess.run(words, capture_output=True, text=True, check=True).stdout
    found = {}
    for own, function in re.findall(r"^ *([\d,]+) \([ \d.]+%\)  \S*?:(.+?)(?: \[.*\])?$", text, re.MULTILINE):
        found[function] = found.get(function, 0) + int(own.replace(",", ""))
    return found


def count_cell(folder, name, variant, operation, kind):
    """Returns the instructions of an operation by function: the difference of runs of 2 N and of N."""
    count = COUNTED.get(kind, 500)
    few, many = (functions(folder, name, variant, operation, kind, it) for it in (count, 2 * count))
    return {it: (many[it] - few.get(it, 0)) / count for it in many if many[it] != few.get(it, 0)}


def count_instructions(folder):
    """Counts the instructions of an operation. They don't depend on other work, so the runs go side by side."""
    every = [(name, variant) for variant in VARIANTS for name in COUNTED_PROGRAMS[variant]]
    cells = [(*it, operation, kind) for it in every for kind in lines(it[1]) for operation in IN_APER if knows(it[0], kind)]
    with concurrent.futures.ThreadPoolExecutor(WORKERS) as pool:
        found = list(pool.map(lambda cell: count_cell(folder, *cell), cells))
    folder.written("instructions.json", json.dumps({" ".join(cell): it for cell, it in zip(cells, found)}, indent=1))


def grow(folder):
    """Takes the processor time and the greatest resident memory of `per_check uper octets` by length."""
    grown = []
    for name, size in SIZES.items():
        seconds, memory = [], []
        for _ in range(REPEATS):
            with open(f"{folder.path}/inputs/growth.{name}", encoding="utf-8") as line:
                words = ["/usr/bin/time", "-f", "%U %S %M", f"{folder.path}/bin/per_check", "uper", "octets"]
                done = subprocess.run(words, stdin=line, stdout=subprocess.DEVNULL, stderr=subprocess.PIPE, text=True, check=True)
            user, system, kibibytes = done.stderr.split()
            seconds.append(float(user) + float(system))
            memory.append(int(kibibytes) * 1024)
        grown.append((size, min(seconds), statistics.median(memory)))
    folder.written("growth.json", json.dumps(grown))


# `Nest ::= SEQUENCE { inner Nest OPTIONAL }` of so many levels, by the programs that read and write it.
LEVELS = (1, 128)
NESTS = {
    "per_check": ["uper", "nest"],
    "table": ["uper", "check", "Types.T-nest", "1", f"{TOP}/schemas/types.schema"],
}
PAGE = 4096


def runs_within(folder, name, octets, levels):
    """Returns whether a program answers for a value of so many levels with a stack of so many octets."""
    bits = "1" * (levels - 1) + "0"
    line = f"{int(bits.ljust(-len(bits) % 8 + len(bits), '0'), 2):0{-(-len(bits) // 8) * 2}x}\n"

    def limited():
        resource.setrlimit(resource.RLIMIT_STACK, (octets, octets))

    words = [f"{folder.path}/bin/{name}", *NESTS[name]]
    done = subprocess.run(words, input=line, capture_output=True, text=True, preexec_fn=limited)
    return done.returncode == 0 and done.stdout == line


def least_stack(folder, name, levels):
    """Returns the least stack in octets, whole pages, with which a program reads and writes so many levels."""
    few, enough = 0, 1 << 11
    if not runs_within(folder, name, enough * PAGE, levels):
        raise Failure(f"{levels} levels take more than {enough * PAGE} octets of stack")
    while enough - few > 1:
        middle = (few + enough) // 2
        few, enough = (few, middle) if runs_within(folder, name, middle * PAGE, levels) else (middle, enough)
    return enough * PAGE


def take_sizes(folder):
    """Takes the octets of the codecs and of what their calls answer, and the stack that nesting takes."""
    with open(folder.input("uper", "four"), encoding="utf-8") as line:
        words = folder.program("rasn", "uper", "check", "sizes", 0)
        done = subprocess.run(words, stdin=line, capture_output=True, text=True, check=True)
    encoder, encoded, decoder, decoded = map(int, done.stdout.split())
    found = {"Encoder": encoder, "Result<(), EncodeError>": encoded, "Decoder": decoder, "Result<bool, DecodeError>": decoded}
    for name in NESTS:
        found |= {f"stack of `{name}` at {it} level{'s' * (it > 1)}": least_stack(folder, name, it) for it in LEVELS}
    folder.written("sizes.json", json.dumps(found))
