"""The types of whole modules, which the program per_table has by a table: the schema file of tools/asn1/compile."""
import re
import tempfile
from dataclasses import dataclass

from asn1ct import Asn1ct
from judge import Judge, Made
from kept import written
from model import Use
from notation import Refused, read
from ours import ask, table_program
from repository import Failure
from schema import Schema
from table_values import ObjectSets, TableChooser, heights_of, tied
from terms import values_of


@dataclass(frozen=True, eq=False)
class TableType:
    """A type of a table that has a name, which is the same on both sides."""
    there: tuple
    use: Use
    # The program writes its values again, and doesn't show them.
    is_shown = False

    @property
    def name(self):
        return self.there[1]

    @property
    def type(self):
        return self.use.type

    @property
    def asked(self):
        """What the program calls it."""
        return ".".join(self.there)

    @staticmethod
    def shown(_, __):
        return ""


class TableProtocol:
    """The types of modules, all of which are known on both sides. `texts` are the modules, of which `own` are those
    whose types are judged; `other` has the texts that asn1ct gets in place of these. The schema file is written into a
    folder."""

    def __init__(self, name, folder, texts, own, variants, other=None):
        self.name, self.variants, self.texts, self.shown = name, variants, other or texts, None
        with tempfile.TemporaryDirectory() as room:
            schema = Schema(*read(texts, room))
        schema.add_all(own)
        schema.judged()
        self.modules, self.schema = schema.modules, f"{folder}/types.schema"
        written(self.schema, schema.text({}))
        self.heights, self.sets = heights_of(tied(self.modules)), ObjectSets(self.modules)
        self.known = [TableType((it.module, it.name), self.modules.use_of(it.module, it.name)) for it in schema.roots]

    def values(self, known, count):
        """Returns values of a type, each with its term."""

        def chooser(manner, number):
            return TableChooser(manner, f"{known.there} {number}", self.heights, self.sets)

        return values_of(known.use, count, chooser)

    @staticmethod
    def write_crates(_):
        """Returns which crates are written, as of a protocol with pages: none."""
        return {}


def made_by_table(protocol, folder, given):
    """Returns what was made of a protocol's whole modules, or why that isn't made."""
    name = name_of(protocol)
    if not protocol.is_of_wireshark(f"{folder}/fetched"):
        return Failure(f"{name}: Wireshark has another variant than {protocol.variant}")
    try:
        texts, own = protocol.texts(f"{folder}/fetched")
        table = TableProtocol(name, f"{folder}/{name}", texts, own, [protocol.variant])
        judge = Judge(table, Asn1ct(f"{folder}/{name}", table.texts))
        return Made(f"{folder}/{name}", judge, [*judge.given(given.values, given.changed or 0)])
    except (Failure, Refused) as error:
        return Failure(f"{name}: {error}")


def name_of(protocol):
    """Returns a name of a protocol of which no other has a part."""
    return f"table_{re.sub('[^a-z0-9]+', '_', protocol.name.lower())}"


def programs_by_table(group, is_built):
    """Returns for each of some protocols the program with its table, which has replied to all that it is given."""
    programs = [table_program(it.judge.protocol.schema, it.folder, is_built) for it in group]
    ask([(program, *it.asked) for program, it in zip(programs, group)])
    return programs
