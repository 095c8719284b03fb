"""Types of modules at random, by pages or by tables."""
import shutil

from asn1ct import Asn1ct
from by_table import TableProtocol
from judge import Judge, Made
from kept import written
from notation import Refused, read_modules
from ours import ask, program_of, written_program
from program import VARIANTS
from protocol import Protocol
from random_modules import Module
from repository import Failure

# Types of a module at random.
BATCH = 80


def protocol_at_random(number, folder, given):
    """Returns a module at random as a protocol, by its number; it is written into a folder."""
    module = Module(number, min(BATCH, given.random - number * BATCH))
    text, other = module.texts()
    path = f"{folder}/{module.name}.asn"
    written(path, text)
    if given.table:
        name, texts = f"table_random_{number}", read_modules([path])
        return TableProtocol(name, folder, texts, [module.name], VARIANTS, {module.name: other})
    return Protocol(f"random_{number}", module.words(folder), {module.name: other}, number % given.together * BATCH)


def made_at_random(number, folder, given):
    """Returns what was made of a module at random, by its number, or why that isn't made."""
    name = f"{'table_' * given.table}random_{number}"
    try:
        protocol = protocol_at_random(number, f"{folder}/{name}", given)
        judge = Judge(protocol, Asn1ct(f"{folder}/{name}", protocol.texts))
        every = [*judge.given(given.values, given.changed or 0)]
        return Made(f"{folder}/{name}", judge, every, protocol.write_crates(f"{folder}/{name}/top"))
    except (Failure, Refused) as error:
        return Failure(f"{name}: {error}")


def programs_of_pages(group):
    """Returns for each of some modules the program of all their pages, which has replied to all that it is given. It
    stands in the folder of the first."""
    if not group:
        return []
    known, crates, top = [], {}, f"{group[0].folder}/top"
    for it in group:
        known += it.judge.protocol.known
        crates |= it.crates
        for crate in it.crates if it != group[0] else ():
            shutil.copytree(f"{it.folder}/top/crates/{crate}", f"{top}/crates/{crate}", dirs_exist_ok=True)
    program = program_of(written_program(top, known, crates))
    ask([(program, *it.asked) for it in group])
    return [program] * len(group)
