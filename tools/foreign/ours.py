"""The programs in Rattle that read octets of a protocol's types and write them again: one of pages, and one that has
the types by a table. `rt try` runs them, unproved."""
import glob
import os
import shutil
import subprocess

from kept import Kept, read, sum_of, written
from program import built_program
from repository import TOP, Failure, below, folder_of, read_crates

# Octets of replies to a file of lines, of which `rt try` prints 1 MiB, and seconds that it lets a file take.
MOST, SECONDS = 900_000, "600"
HERE = os.path.dirname(os.path.realpath(__file__))
TYPES = """//! The types, by their numbers.

use crate::{Asked, reply_as};
use anyhow::{Result, bail};
use std::alloc::Global;

/// The reply to what is asked of the type of a number.
pub fn reply(alloc: Global, asked: &Asked, number: u32) -> Result<String> {
    match number {
ARMS
        _ => bail!("there is no type {number}"),
    }
}
"""


def copied(crate, to):
    """Copies what `rt try` reads of a crate of this repository, as it takes none that lies elsewhere."""
    shutil.rmtree(to, ignore_errors=True)
    for part in ("src", "specs"):
        if os.path.isdir(f"{folder_of(crate)}/{part}"):
            shutil.copytree(f"{folder_of(crate)}/{part}", f"{to}/{part}")


def written_program(top, known, crates):
    """Writes the program of these types into a folder with the list of the crates that it needs, and returns its
    folder. `crates` says of those crates that stand there what each needs; the others are this repository's."""
    lines = {**read_crates(), **crates}
    needed = ["rasn_below", "rasn_per", *sorted({it.path.split("::")[0] for it in known})]
    for name in below(needed, lines):
        if name not in crates:
            copied(name, f"{top}/crates/{name}")
    texts = [f"{name}: {' '.join(lines[name])}\n" for name in below(needed, lines)]
    written(f"{top}/crates.txt", "".join([*texts, f"foreign: {' '.join(needed)} anyhow hex\n"]))
    shutil.copy(f"{TOP}/HANDLES", f"{top}/HANDLES")
    arms = [f"        {it.number} => reply_as::<{it.path}>(alloc, asked)," for it in known]
    written(f"{top}/crates/foreign/src/types.rt", TYPES.replace("ARMS", "\n".join(arms)))
    shutil.copy(f"{HERE}/main.rt.txt", f"{top}/crates/foreign/src/main.rt")
    return f"{top}/crates/foreign"


def sources(crates):
    """Gives the texts of crates, by the pattern of their folders."""
    for path in sorted(glob.glob(f"{crates}/src/**/*.rt", recursive=True)):
        yield read(path)


class Program:
    """A program. `rt try` makes it anew where it runs, so it runs once for all lines to which no reply is kept. `room`
    is the folder in which what it replies is kept, and `texts` are what that depends on. It may read a schema file, and
    may have been built before."""

    def __init__(self, crate, room, texts, schema=None, built=None):
        self.crate, self.room, self.schema, self.built = crate, room, schema, built
        self.kept = Kept(f"{room}/replies", sum_of(*texts))

    def left(self, lines, room):
        """Gives lines, file by file, less the files to which a reply is kept; `room` says how long the reply to each
        may be."""
        return [(self, file) for file in files_of(lines, room) if self.kept.lines(*file) is None]

    def replies(self, lines, room):
        """Returns the reply to each line."""
        ask([(self, lines, room)])
        return [reply for file in files_of(lines, room) for reply in self.kept.lines(*file)]

    def reply(self, lines):
        """Keeps what the program, as it was built, replies to lines."""
        asked = "".join(f"{line}\n" for line in lines)
        words = [self.built, self.schema]
        ran = subprocess.run(words, input=asked, capture_output=True, text=True, check=False)
        found = ran.stdout.splitlines()
        if ran.returncode or len(found) != len(lines):
            raise Failure(f"{self.schema}: {len(found)} replies to {len(lines)} lines\n{ran.stderr[-2000:]}")
        self.kept.keep(found, *lines)


def program_of(crate):
    """Returns the program of a crate that was written, beside which stand all those below it."""
    top = os.path.dirname(os.path.dirname(crate))
    return Program(crate, os.path.dirname(top), [*sources(f"{top}/crates/*")])


def table_program(schema, room, is_built):
    """Returns this repository's program that reads values by a table, with a schema file; as the gate left it where it
    is built."""
    texts = [text for crate in below(["per_table"], read_crates()) for text in sources(folder_of(crate))]
    built = built_program(True, "per_table") if is_built else None
    return Program(folder_of("per_table"), room, [*texts, read(schema)], schema, built)


def ask(asked):
    """Has programs of one crate reply to all that is asked: each a program, lines, and how long the replies may be."""
    left = [file for program, lines, room in asked for file in program.left(lines, room)]
    if left and left[0][0].built:
        for program, lines in left:
            program.reply(lines)
    elif left:
        run(left)


def run(files):
    """Runs one program for files of lines, each with the schema file that it reads there, and keeps the replies to each
    as it ends."""
    folder, crate = f"{files[0][0].room}/cases", files[0][0].crate
    shutil.rmtree(folder, ignore_errors=True)
    words = ["rt", "try", "--steps", "1", "--seconds", SECONDS, "--cases", folder]
    for number, (program, lines) in enumerate(files):
        written(f"{folder}/{number:04}", "".join(f"{line}\n" for line in lines))
        if program.schema:
            written(f"{folder}/{number:04}.args", f"{number}.schema\n")
            words += ["--data", f"{number}.schema={program.schema}"]
    with open(f"{files[0][0].room}/said", "w+", encoding="utf-8") as said:
        with subprocess.Popen(words, cwd=crate, stdout=subprocess.PIPE, stderr=said, text=True) as ran:
            for number, replies in cases(ran.stdout):
                program, lines = files[number]
                if len(replies) == len(lines):
                    program.kept.keep(replies, *lines)
        said.seek(0)
        lacking = [number for number, (program, lines) in enumerate(files) if program.kept.lines(*lines) is None]
        if lacking:
            raise Failure(f"the program doesn't reply to each line of cases/{lacking[0]:04}:\n{said.read()[-2000:]}")


def cases(output):
    """Gives the number of each file of lines, and the replies that stand behind its name in what `rt try` prints."""
    number, replies = None, []
    for line in output:
        if line.startswith("== "):
            if number is not None:
                yield number, replies
            number, replies = int(line.split()[1]), []
        else:
            replies.append(line.rstrip("\n"))
    if number is not None:
        yield number, replies


def files_of(lines, sizes):
    """Gives lines file by file, so that the replies to none are past what `rt try` prints."""
    file, total = [], 0
    for line, size in zip(lines, sizes):
        if file and total + size > MOST:
            yield file
            file, total = [], 0
        file.append(line)
        total += size
    if file:
        yield file
