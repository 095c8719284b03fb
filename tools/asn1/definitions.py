"""The definitions of ASN.1 modules as they were parsed: by their names, across imports, with the values that they refer to."""
from notation import DATE_TAG, Refused, kind, parts, spelled
from refusals import Refusals


def module_name(node):
    return node if isinstance(node, str) else node["type"]


def symbol_name(node):
    """Returns the name of what is imported: of a type, of one with parameters, or of a value."""
    if kind(node) == "pt" or "t" in node:
        return symbol_name(next(it for it in node["t"] if isinstance(it, dict)))
    return node.get("type") or node.get("value")


# The first arcs of an OBJECT IDENTIFIER that may stand without a number (X.660 A), by how many stand before them.
ARCS = (
    {"itu-t": 0, "ccitt": 0, "iso": 1, "joint-iso-itu-t": 2, "joint-iso-ccitt": 2},
    {"recommendation": 0, "question": 1, "administration": 2, "network-operator": 3, "identified-organization": 3,
     "standard": 0, "registration-authority": 1, "member-body": 2},
)
# The class that each module has (X.681 Annex A).
TYPE_IDENTIFIER = {"_": "typedef", "pos": 0, "name": "TYPE-IDENTIFIER", "typespec": {"fields": [
    {"t": ["fixedtypevaluefield", "id", {"_": "type", "tag": [], "def": "OBJECT IDENTIFIER", "constraint": []}, "UNIQUE", "MANDATORY"]},
    {"t": ["typefield", "Type", "MANDATORY"]},
]}}


def steps_of(nodes):
    """Gives the arcs of an OBJECT IDENTIFIER, of which the parser takes `{ home 5 }` for a component and its value."""
    for node in nodes:
        if kind(node) == "NamedNumber":
            yield parts(node)[1]
        elif isinstance(node, dict) and "t" in node and kind(node["t"][0]) == "seqtag":
            tag = node["t"][0]
            yield from ({"_": "Externalvaluereference", "pos": tag["pos"], "module": tag["module"], "value": tag["val"]}, node["t"][1])
        else:
            yield node


class Bits(str):
    """The bits of a string, as a text of the digits 0 and 1."""

    def octets(self):
        """Returns them as octets, filled up with bits that are 0."""
        return bytes(int(self[place : place + 8].ljust(8, "0"), 2) for place in range(0, len(self), 8))


def actual_type(node):
    """Returns the type that a name stands for where it is given, as one that is written there."""
    return {"_": "type", "tag": [], "def": node, "constraint": []} if kind(node) == "Externaltypereference" else node


class Definitions:
    """All definitions of the modules that were read, and the object sets that were given for a parameter."""

    def __init__(self, front):
        self.front, self.defined, self.automatic, self.imported = front, {}, {}, {}
        self.object_sets, self.refusals = set(), Refusals()
        for module, read in front.items():
            self.automatic[module] = read["parsed"]["tagdefault"] == "AUTOMATIC"
            for group in parts(read["parsed"]["imports"])[0]:
                for symbol in group["symbols"]:
                    self.imported[module, symbol_name(symbol)] = module_name(group["module"])
            for one in read["parsed"]["typeorval"]:
                self.defined[module, one["name"]] = one

    def home(self, module, name):
        """Returns the module that defines what a module calls by this name."""
        while (module, name) not in self.defined:
            if (module, name) not in self.imported:
                raise Refused(f"{module} has no definition of {name}")
            module = self.imported[module, name]
        return module

    def find(self, module, name):
        if name == "TYPE-IDENTIFIER":
            return TYPE_IDENTIFIER
        return self.defined[self.home(module, name), name]

    def typespec(self, module, name):
        """Returns what a definition says of its type, a value set's with the set as a constraint (X.680 16.6); None where it is
        no type without parameters."""
        found = self.defined[module, name]
        if found["_"] == "typedef" and kind(found["typespec"]) == "type":
            return found["typespec"]
        if found["_"] == "valuedef" and kind(found["value"]) == "valueset":
            return {**found["type"], "constraint": [*found["type"]["constraint"], parts(found["value"])[0]]}
        return None

    @staticmethod
    def is_date(node):
        """Returns whether a type is that which notation.py put in for DATE."""
        return [(tag["class"], tag["number"]) for tag in node["tag"]] == [DATE_TAG]

    def value(self, node, names=(), given=None):
        """Returns a value behind the names that stand for it, or the first of these names that does."""
        given = given or {}
        while kind(node) == "Externalvaluereference":
            if node["value"] in names:
                return node["value"]
            if node["value"] in given:
                node, _, given = given[node["value"]]
            else:
                found = self.find(node["module"], node["value"])
                if "value" not in found:
                    raise Refused(f"{node['value']} is no value")
                node, given = found["value"], {}
        return node

    def number(self, node, given, names=None):
        """Returns the number that a value is, or None for MIN and MAX. What is `given` stands for the names of parameters, and
        `names` has those of the type's numbers (X.680 19.10)."""
        found = self.value(node, names or (), given)
        if names and isinstance(found, str) and found in names:
            return names[found]
        if isinstance(found, int):
            return found
        if found in ("MIN", "MAX"):
            return None
        if isinstance(found, list) and len(found) == 1 and isinstance(found[0], int):
            return found[0]
        raise Refused(f"{spelled(node)} is no number")

    def text(self, node, given=None):
        """Returns the code points of a string."""
        found = self.value(node, (), given)
        if isinstance(found, list) and all(isinstance(it, int) for it in found):
            return found
        raise Refused(f"{spelled(node)} is no string")

    def bits(self, node):
        """Returns the bits of a string of digits."""
        found = self.value(node)
        if kind(found) not in ("bstring", "hstring"):
            raise Refused(f"{spelled(node)} is no string of bits or octets")
        digits = "".join(map(chr, parts(found)[0]))
        return Bits(digits if kind(found) == "bstring" else "".join(f"{int(digit, 16):04b}" for digit in digits))

    def octets(self, node):
        """Returns the octets of a string of digits, filled up with bits that are 0 (X.680 23)."""
        return self.bits(node).octets()

    def arcs(self, node):
        """Returns the numbers of an OBJECT IDENTIFIER (X.680 32)."""
        found, steps = [], self.value(node)
        for step in steps_of(steps) if isinstance(steps, list) else [None]:
            known = ARCS[len(found)] if len(found) < len(ARCS) else {}
            if isinstance(step, int):
                found.append(step)
            elif kind(step) != "Externalvaluereference":
                raise Refused(f"{spelled(node)} is no OBJECT IDENTIFIER")
            elif step["value"] in known:
                found.append(known[step["value"]])
            else:
                inner = self.value(step)
                found += [inner] if isinstance(inner, int) else self.arcs(inner)
        return tuple(found)

    def note_set(self, node, module, given):
        """Keeps the name of an object set that is given for a parameter."""
        element = parts(node)[0]
        inner = parts(element)[0] if kind(element) == "element_set" else None
        reference = inner["def"] if kind(inner) == "type" else None
        if kind(reference) == "Externaltypereference":
            if reference["type"] in given:
                self.note_set(*given[reference["type"]])
            else:
                self.object_sets.add((self.home(reference["module"], reference["type"]), reference["type"]))

    def rows(self, module, name):
        """Gives the identifier and the fields of each object of a set, as asn1ct read them."""
        found = self.front[module].get("checked", {}).get(name, {}).get("typespec", {})
        for row in found.get("set", []) if found.get("_") == "ObjectSet" else []:
            if isinstance(row, dict) and "t" in row and isinstance(row["t"][1], int):
                yield row["t"][1], [field["t"] for field in row["t"][2]]

    def objects(self, module, name):
        """Gives the objects of a set: the identifier, the type that it names, and what else it says."""
        for identifier, fields in self.rows(module, name):
            yield identifier, *self.fields_of_object(fields, identifier)

    def types_of(self, module, name):
        """Gives the module and the name of a type, or of each that the objects of a set name."""
        module = self.home(module, name)
        if kind(self.defined[module, name].get("typespec")) != "ObjectSet":
            yield module, name
        for _, fields in sorted(self.rows(module, name), key=lambda row: row[0]):
            yield from ((held["module"], held["type"]) for _, held in fields if kind(held) == "Externaltypereference")

    @staticmethod
    def fields_of_object(fields, identifier):
        what, more = "a type", []
        for key, held in fields:
            if kind(held) == "Externaltypereference":
                what = held["type"]
            elif kind(held) == "typedef":
                of = held["typespec"]["def"]
                what = kind(of) if isinstance(held["name"], dict) else held["name"]
                what = of["type"] if kind(of) == "Externaltypereference" else what
            elif kind(held) == "valuedef" and held["value"] != identifier:
                more.append(f"{key} {held['value']}")
        return what, ", ".join(reversed(more))
