"""What Erlang's asn1ct makes of values and octets."""
import os

from kept import Kept, read, sum_of, written
from protocol import ran
from repository import Failure

SCRIPT = f"{os.path.dirname(os.path.realpath(__file__))}/asn1ct.escript"
# The rules of asn1ct for each variant.
RULES = {"aper": "per", "uper": "uper"}
# What a run of it may take: seconds of a processor, and octets of memory.
BOUNDS = ["prlimit", "--cpu=3600", "--as=8000000000"]


class Asn1ct:
    """asn1ct with modules, by their names. What it makes of them and what it answers stay in a folder."""

    def __init__(self, folder, texts):
        self.folder, self.texts = folder, texts
        self.sum = sum_of(read(SCRIPT), *(word for item in texts.items() for word in item))
        self.kept = Kept(f"{folder}/answers", self.sum)

    def compiled(self, variant):
        """Returns the folder of what asn1ct makes of the modules, which is made where it isn't there."""
        folder = f"{self.folder}/{RULES[variant]}"
        mark = f"{folder}/compiled"
        if not os.path.exists(mark) or read(mark) != self.sum:
            for name, text in self.texts.items():
                written(f"{folder}/{name}.asn1", text)
            ran([*BOUNDS, "escript", SCRIPT, "compile", folder, RULES[variant], *self.texts])
            written(mark, self.sum)
        return folder

    def answers(self, variant, operation, lines):
        """Returns what asn1ct answers to lines, each to be encoded or to be read and encoded again."""
        if not lines:
            return []
        kept = self.kept.lines(variant, operation, *lines)
        if kept is not None:
            return kept
        folder = self.compiled(variant)
        written(f"{self.folder}/asked", "".join(f"{line}\n" for line in lines))
        ran([*BOUNDS, "escript", SCRIPT, operation, folder, f"{self.folder}/asked", f"{self.folder}/answered"])
        answers = read(f"{self.folder}/answered").splitlines()
        if len(answers) != len(lines):
            raise Failure(f"asn1ct answers {len(answers)} lines of {len(lines)}")
        return self.kept.keep(answers, variant, operation, *lines)

    def encoded(self, variant, rows):
        """Returns what it encodes of rows of a module, a type and a term: hexadecimal digits, or `!` and why there are none."""
        return self.answers(variant, "encode", [f"{{'{module}','{name}',{term}}}." for (module, name), term in rows])

    def recoded(self, variant, rows):
        """Returns what it reads of rows of a module, a type and octets, and encodes again. Where it doesn't, `! read` or
        `! write` and why."""
        return self.answers(variant, "recode", [f"{module} {name} {octets.hex()}" for (module, name), octets in rows])
