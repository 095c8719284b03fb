"""Builds the programs of the benchmark in a folder, and holds each to the encodings of inputs.py."""
import glob
import os
import re
import shutil
import subprocess

from inputs import MESSAGES, SCHEMAS, TYPES, lines, octets_line
from osmocom import FLAGS, OTHER_LIBRARIES, put_aligned
from program import built_program
from protocol_crates import Pages
from repository import TOP, Failure, below, read_crates

HERE = os.path.dirname(os.path.realpath(__file__))
VARIANTS = ("uper", "aper")
# The programs in Rattle, by pages and by tables: the libraries that each names, and its files in this folder.
LIBRARIES = {
    "rasn": ["rasn_below", "per_enc", "per_de", "rasn_per", "per_samples_a", "per_samples_b", "its_container", "cam", "ngap_setup"],
    "table": ["schema_file", "rasn_types", "rasn_dynamic", "per_enc", "per_dynamic"],
}
FILES = {"rasn": ["rattle/*"], "table": ["table/*", "rattle/input"]}
# The modules of ASN.1 of the messages, each in a file of its name.
MODULES = {
    "uper": {"ITS-Container": "its/ITS-Container", "CAM-PDU-Descriptions": "its/CAM"},
    "aper": {f"NGAP-{it}": f"ngap/NGAP-{it}" for it in ("CommonDataTypes", "Constants", "Containers", "IEs")},
}
SIZES = {"1k": 1 << 10, "64k": 1 << 16, "1m": 1 << 20, "16m": 1 << 24}
# asn1c knows no addition groups: an optional addition of the group's type has the same encoding (X.691 19.9).
GROUP = (r"\[\[.*\]\]", "group Inner OPTIONAL")
# It leaves out the length of zero behind whole fragments of 64 KiB.
KNOWN_DIFFERENCES = {("asn1c", "uper", "octets1m"), ("asn1c", "uper", "behind1m")}
# Osmocom's library reads no additions in APER, and of octets the first fragment alone.
NOT_READ = {("osmocom", "group"), ("osmocom", "octets1m"), ("osmocom", "behind1m")}
# The programs of asn1c's code, each for one variant.
OF_ASN1C = {"asn1c": "uper", "osmocom": "aper"}


def ran(words, folder, **how):
    """Runs a command in a folder and returns what it prints."""
    done = subprocess.run(words, cwd=folder, capture_output=True, text=True, **how)
    if done.returncode:
        raise Failure(f"{' '.join(words)}: status {done.returncode}\n{(done.stdout + done.stderr)[-2000:]}")
    return done.stdout


def copied(source, to):
    """Copies a file; of what `rt` has built, which nothing writes again, a second name serves where the disk is the same."""
    try:
        if "/out/" not in source:
            return shutil.copy2(source, to)
        os.link(source, to)
    except OSError:
        shutil.copy2(source, to)
    return to


class Erlang:
    """A running program in Erlang, of one variant: to start one takes longer than what is timed."""

    def __init__(self, folder, variant):
        words = ["erl", "+S", "1", "+sbwt", "none", "-noshell", "-pa", f"{folder.path}/erlang_{variant}", "-s", "bench", "main"]
        self.started = subprocess.Popen(words, stdin=subprocess.PIPE, stdout=subprocess.PIPE, text=True)

    def answer(self, operation, kind, count, file):
        """Returns the line that it answers."""
        self.started.stdin.write(f"{operation} {kind} {count} {file}\n")
        self.started.stdin.flush()
        line = self.started.stdout.readline()
        if not line:
            raise Failure(f"erlang {operation} {file}: no answer")
        return line


class Folder:
    """Where the benchmark builds and keeps its results."""

    def __init__(self, path):
        self.path = os.path.realpath(path)
        self.running = {}
        for name in ("bin", "inputs", "profiles"):
            os.makedirs(f"{self.path}/{name}", exist_ok=True)

    def erlang(self, variant, operation, kind, count):
        """Returns what Erlang answers. Its program ends with this one."""
        if variant not in self.running:
            self.running[variant] = Erlang(self, variant)
        return self.running[variant].answer(operation, kind, count, self.input(variant, kind))

    def program(self, name, variant, operation, kind, count):
        """Returns the command of a program, which reads the line of the kind. By a table it is told the type and its file."""
        if name == "table":
            return [f"{self.path}/bin/table", variant, operation, TYPES[kind], str(count), self.schema(kind)]
        return [f"{self.path}/bin/{name}", variant, operation, kind, str(count)]

    def schema(self, kind):
        """Returns the schema file that has a kind's type."""
        return f"{TOP}/schemas/{SCHEMAS[kind]}.schema" if kind in SCHEMAS else f"{self.path}/Bench.schema"

    def input(self, variant, kind):
        return f"{self.path}/inputs/{variant}.{kind}"

    def written(self, name, text):
        with open(f"{self.path}/{name}", "w", encoding="utf-8") as it:
            it.write(text)


def write_inputs(folder):
    for variant in VARIANTS:
        for kind, line in lines(variant).items():
            folder.written(f"inputs/{variant}.{kind}", line)
    for name, size in SIZES.items():
        folder.written(f"inputs/growth.{name}", octets_line(size))


def build_this_project(folder):
    """Proves and builds the programs in Rattle, in a copy of the libraries below, which are there as they are proved. NGAP's
    pages are written for them."""
    pages = Pages(f"{folder.path}/fetched", f"{folder.path}/pages", ["ngap"])
    crates, copy = {**read_crates(), **pages.lines}, f"{folder.path}/copy"
    found = below(sum(LIBRARIES.values(), []), crates)
    for name in found:
        shutil.rmtree(f"{copy}/crates/{name}", ignore_errors=True)
        pages.put_crate(name, f"{copy}/crates/{name}", copy_function=copied)
    lines = [f"{name}: {' '.join(crates[name])}\n" for name in found]
    lines += [f"bench_{name}: {' '.join(it)} anyhow hex\n" for name, it in LIBRARIES.items()]
    folder.written("copy/crates.txt", "".join(lines))
    shutil.copy(f"{TOP}/HANDLES", f"{copy}/HANDLES")
    ran([f"{TOP}/tools/asn1/compile", "--schema", f"{folder.path}/Bench.schema", "--all", f"{HERE}/Bench.asn1"], folder.path)
    for name in LIBRARIES:
        put_program(name, f"{copy}/crates/bench_{name}")
    for name in LIBRARIES:
        build_program(folder, name, f"{copy}/crates/bench_{name}")


def put_program(name, crate):
    """Puts the sources of a program in Rattle in the folder of its crate."""
    for part, ending in (("src", ".rt"), ("specs", ".antt")):
        shutil.rmtree(f"{crate}/{part}", ignore_errors=True)
        os.makedirs(f"{crate}/{part}")
        for file in [file for it in FILES[name] for file in glob.glob(f"{HERE}/{it}{ending}.txt")]:
            shutil.copy(file, f"{crate}/{part}/{os.path.basename(file).removesuffix('.txt')}")


def build_program(folder, name, crate):
    """Proves and builds a program in Rattle in the folder of its crate."""
    words = folder.program(name, "uper", "check", "four", 1)
    with open(folder.input("uper", "four"), encoding="utf-8") as line:
        ran(["rt", "run", "--", *words[1:]], crate, stdin=line)
    shutil.copy(f"{crate}/out/bench_{name}", f"{folder.path}/bin/{name}")


def fetch_modules(folder):
    """Has the modules in the folder, each in a file of its own name."""
    fetched, made = f"{folder.path}/fetched", f"{folder.path}/modules"
    if not os.path.isdir(made):
        ran([f"{TOP}/tools/asn1/fetch_modules", fetched], folder.path)
        os.makedirs(made)
        for module, file in [it for found in MODULES.values() for it in found.items()]:
            shutil.copy(f"{fetched}/asn1/{file}.asn", f"{made}/{module}.asn")
    return made


def generated(folder, name, modules):
    """Returns a folder in which asn1c has generated the C of Bench.asn1 and of modules."""
    made = f"{folder.path}/{name}"
    shutil.rmtree(made, ignore_errors=True)
    os.makedirs(made)
    with open(f"{HERE}/Bench.asn1", encoding="utf-8") as it:
        folder.written(f"{name}/Bench.asn1", re.sub(*GROUP, it.read()))
    ran(["asn1c", "-gen-PER", "-pdu=all", "Bench.asn1", *modules], made)
    return made


def compile_generated(folder, name, made, flags, libraries):
    """Compiles what asn1c generated in a folder, and the program that calls it."""
    sources = sorted(it for it in os.listdir(made) if it.endswith(".c") and it != "converter-sample.c")
    words = ["gcc", "-O2", "-w", "-I.", f"-I{HERE}/c", *flags, "-o", f"{folder.path}/bin/{name}", f"{HERE}/c/with_asn1c.c"]
    ran([*words, *sources, *libraries], made)


def build_asn1c(folder):
    modules = [f"{folder.path}/modules/{it}.asn" for it in MODULES["uper"]]
    compile_generated(folder, "asn1c", generated(folder, "asn1c", modules), [], [])


def build_osmocom(folder):
    made = f"{folder.path}/osmocom_aligned"
    put_aligned(generated(folder, "osmocom", [f"{HERE}/Areas.asn1"]), made)
    compile_generated(folder, "osmocom", made, FLAGS, OTHER_LIBRARIES)


def build_erlang(folder):
    for variant, rules in (("uper", "uper"), ("aper", "per")):
        made = f"{folder.path}/erlang_{variant}"
        os.makedirs(made, exist_ok=True)
        shutil.copy(f"{HERE}/Bench.asn1", made)
        for module in MODULES[variant]:
            shutil.copy(f"{folder.path}/modules/{module}.asn", made)
        for module in ("Bench.asn1", *MODULES[variant]):
            ran(["erl", "-noshell", "-eval", f'ok = asn1ct:compile("{module}", [{rules}]), halt().'], made)
        ran(["erlc", f"{HERE}/erlang/bench.erl"], made)


def check(folder):
    """Has each program encode what it decoded, which must be the line that it was given."""
    told = []
    for name, variant in programs():
        for kind in [it for it in lines(variant) if knows(name, it)]:
            with open(folder.input(variant, kind), encoding="utf-8") as line:
                if name == "erlang":
                    answer = folder.erlang(variant, "check", kind, 1)
                else:
                    answer = ran(folder.program(name, variant, "check", kind, 1), folder.path, stdin=line)
                line.seek(0)
                if answer == line.read():
                    continue
            if (name, variant, kind) not in KNOWN_DIFFERENCES:
                raise Failure(f"{name} {variant} {kind}: other octets")
            told.append(f"{name} writes {kind} otherwise in {variant}: it leaves out the length of zero behind whole fragments.")
    told += [f"{name} doesn't read {kind}." for name, kind in sorted(NOT_READ)]
    folder.written("differences.txt", "".join(f"{it}\n" for it in told))


def programs():
    """Returns each program with each variant that it knows."""
    names = ("rasn", "table", *OF_ASN1C, "erlang", "c")
    return [(name, it) for name in names for it in VARIANTS if OF_ASN1C.get(name, it) == it]


def knows(name, kind):
    """Returns whether a program has a kind: the C by hand has no messages."""
    return (name, kind) not in NOT_READ and (name != "c" or kind not in MESSAGES)


def build(folder):
    write_inputs(folder)
    fetch_modules(folder)
    build_asn1c(folder)
    build_osmocom(folder)
    build_erlang(folder)
    ran(["gcc", "-O2", "-Wall", "-o", f"{folder.path}/bin/c", f"{HERE}/c/by_hand.c"], folder.path)
    build_this_project(folder)
    shutil.copy(built_program(False), f"{folder.path}/bin/per_check")
    check(folder)
