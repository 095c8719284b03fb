"""Holds what a schema file has beyond pages against what asn1ct made of the same text: values of constructed types, tags and
object sets."""
from agree import Agreement
from literals import Literals, side_of
from notation import kind
from whole import LISTS, RECORDS, Governed

NOTHING = "asn1_NOVALUE"
SIMPLE = ("BOOLEAN", "INTEGER", "ENUMERATED", "BIT STRING", "OCTET STRING", "OBJECT IDENTIFIER")


def texts_of(rows, defaults):
    """Returns a text of each object, less what it has by default."""
    return sorted({str(sorted(pair for pair in row if pair not in defaults)) for row in rows})


def flat(nodes):
    """Gives what stands in lists of lists."""
    for node in nodes:
        if isinstance(node, list):
            yield from flat(node)
        else:
            yield node


class SchemaAgreement(Agreement):
    """Differences in what a table of types says."""

    def __init__(self, modules):
        super().__init__(modules.front)
        self.modules, self.literals, self.sets = modules, Literals(modules), {}

    def use(self, use, node, at, is_whole=False):
        super().use(use, node, at, is_whole)
        if isinstance(use, Governed) and use.objects:
            self.note(*use.objects, use.owner)

    def note(self, node, module, given, owner):
        """Keeps an object set that has a name."""
        while kind(node) in ("element_set", "valueset", "objectset"):
            node = node["t"][1]
        node = node["def"] if kind(node) == "type" else node
        if kind(node) == "Externaltypereference":
            if node["type"] in given:
                self.note(*given[node["type"]], owner)
            else:
                self.sets[self.modules.home(node["module"], node["type"]), node["type"]] = owner

    def root_of(self, of):
        return self.modules.ordered(of)

    def lists(self, of, components, at):
        super().lists(of, components, at)
        if any(part.group for part in of.all_parts):
            return      # pages count a group as one
        if self.forgets(of, at.partition(",")[0]):
            self.unjudged.append(f"{at}, its tags")
            return
        sides = components["t"] if isinstance(components, dict) else [components]
        nodes = {it["name"]: it for it in flat(sides) if kind(it) == "ComponentType"}
        for part in of.all_parts:
            tags = nodes.get(part.name, {}).get("tags")
            if part.outer and isinstance(tags, list):
                self.say(f"{at}.{part.name}", "the tag", [[*part.outer]], [it["t"] for it in tags])

    def forgets(self, of, module):
        """Returns whether asn1ct reads the tags of a list otherwise than X.680 25.3 has it: they aren't automatic there
        where components that COMPONENTS OF takes have some, and they go by the module that imports a type with
        parameters."""
        is_automatic = self.modules.automatic[module]
        is_retagged = is_automatic and any(part.is_taken and part.tags for part in of.all_parts)
        return is_retagged or any(self.modules.automatic[part.module] != is_automatic for part in of.all_parts)

    def default(self, part, theirs, at):
        if part.use.type.kind in SIMPLE:
            super().default(part, theirs, at)
        else:
            self.say(at, "the default", self.literals.default(part.default, part.use), self.words(theirs, part.use))

    def words(self, node, use):
        """Returns the words of a value of asn1ct."""
        of = self.modules.whole(use)
        if of.kind in RECORDS:
            root = sorted(of.parts, key=self.modules.smallest_tag) if of.kind == "SET" else of.parts
            names = [it.name for part in [*root, *(of.added or [])] for it in (part.group or [part])]
            given = dict(zip(names, node["t"][1:]))
            slots = [self.slot(part, given) for part in of.all_parts]
            return ["record", str(len(slots)), *sum(slots, [])]
        if of.kind in LISTS:
            return ["list", str(len(node)), *(word for it in node for word in self.words(it, of.element))]
        if of.kind == "CHOICE":
            name, inner = node["t"]
            part = next(it for it in of.all_parts if it.name == name)
            sides = [[it.name for it in side] for side in (self.modules.ordered(of), of.added or [])]
            return ["chosen", *side_of(name, *sides), *self.words(inner, part.use)]
        if of.kind == "BOOLEAN":
            return [node]
        if of.kind == "OCTET STRING":
            return self.literals.default(bytes.fromhex(node["b"]), use)
        if of.kind == "OBJECT IDENTIFIER":
            return self.literals.default(tuple(node["t"] if isinstance(node, dict) else node), use)
        return self.literals.value(node, use)

    def slot(self, part, given):
        if part.group is not None:
            slots = [self.slot(it, given) for it in part.group]
            is_there = any(given[it.name] != NOTHING for it in part.group)
            return ["record", str(len(slots)), *sum(slots, [])] if is_there else ["absent"]
        if given[part.name] != NOTHING:
            return self.words(given[part.name], part.use)
        return self.literals.default(part.default, part.use) if part.presence == "default" else ["absent"]

    def compare_sets(self):
        """Compares the object sets of open types."""
        for (module, name), owner in self.sets.items():
            at = f"{module}, line {self.modules.defined[module, name]['pos']}: {name}"
            checked = self.front[module].get("checked", {}).get(name)
            if checked and checked["typespec"]["uniquefname"] not in ("undefined", "no_unique"):
                node = {"_": "Externaltypereference", "module": module, "type": name}
                theirs = [[(key, self.theirs(held, owner, key)) for key, held in (it["t"] for it in row["t"][2])]
                          for row in checked["typespec"]["set"] if kind(row) != "EXTENSIONMARK"]
                ours = [self.ours(fields, owner) for fields, _ in self.modules.members(node, module, {}, owner)]
                defaults = self.ours(self.modules.defaults_of(owner), owner)
                self.compared += len(ours)
                self.say(at, "the objects", *(texts_of(rows, defaults) for rows in (ours, theirs)))

    def ours(self, fields, owner):
        """Returns what an object says of each field: the name of a type, or the words of a value."""
        found = []
        for name, node in fields.items():
            use = self.modules.field_use(owner, name)
            of = node["def"] if kind(node) == "type" else node
            said = of["type"] if kind(of) == "Externaltypereference" else kind(of)
            found.append((name, self.literals.value(node, use) if use else said))
        return found

    def theirs(self, node, owner, name):
        """Returns what asn1ct says of a field of an object in the same way."""
        use = self.modules.field_use(owner, name)
        if use:
            return self.words(node["value"] if kind(node) == "valuedef" else node, use)
        return node["type"] if kind(node) == "Externaltypereference" else kind(node["typespec"]["def"])


def differences_of(modules):
    """Returns what came of the comparison of all that was read of modules."""
    agreement = SchemaAgreement(modules)
    for key in modules.cache:
        checked = modules.front[key[0]].get("checked", {}).get(key[1])
        if key in modules.defined and checked and checked.get("_") == "typedef" and kind(checked["typespec"]) == "type":
            place = f"{key[0]}, line {modules.defined[key]['pos']}: {key[1]}"
            agreement.use(modules.cache[key], checked["typespec"], place, is_whole=True)
    agreement.compare_sets()
    return agreement
