"""The types of ASN.1 modules as a schema file takes them: as resolve.py has them, with types that hold themselves, SETs, all
tags, and a type of its own for each object set that is given for a parameter."""
from dataclasses import dataclass, replace

from model import Part, Type, Use
from notation import Refused, kind, parts, placed
from objects import Objects
from refusals import all_of
from resolve import OTHER_NAMES, Modules, known_forms
from tags import CLASSES, UNIVERSAL, is_by_place

LISTS = ("SEQUENCE OF", "SET OF")
RECORDS = ("SEQUENCE", "SET")
# Strings that PER writes as octets, of which there are no pages.
MORE_STRINGS = ("VideotexString", "ObjectDescriptor")
MISSING = ("REAL", "RELATIVE-OID", "EXTERNAL", "EMBEDDED PDV", "CHARACTER STRING", "UniversalString")
MORE_TAGS = {"ObjectDescriptor": 7, "VideotexString": 21}
# How deep types with parameters may stand in one another: behind it, they never end.
DEEPEST = 100


@dataclass
class Governed(Use):
    """The use of a field of an information object class under an object set."""
    field: str = ""             # the field's name
    owner: tuple = None         # the class: its module and name
    objects: tuple = None       # the set, the module where it stands and what is given there; None without a set
    chooser: str = ""           # the component beside it whose value says which object it is


class Several(Refused):
    """Several refusals, each with its place."""

    @property
    def place(self):
        return None

    @place.setter
    def place(self, _):
        """They have theirs."""


def reference_of(node):
    """Returns the definition that a type names and nothing else, or None."""
    is_bare = kind(node) == "type" and not node["tag"] and not node["constraint"]
    found = node["def"] if is_bare else node
    return found if kind(found) == "Externaltypereference" else None


def table_constraint(constraints):
    """Returns the object set of a table constraint, and the component that it names or an empty text; or None."""
    for node in constraints:
        node = parts(node)[0] if kind(node) == "element_set" else node
        if kind(node) == "simpletable":
            return parts(node)[0], ""
        if kind(node) == "componentrelation":
            objects, paths = parts(node)
            steps = [step["value"] for path in paths for step in parts(path)[-1]]
            return parts(objects)[-1], steps[0] if len(steps) == 1 else ""
    return None


class Whole(Objects, Modules):
    """The types of all modules. What is read once has a key in `cache`: a definition's, or that of a type with parameters,
    whose name says what is given. A type that holds itself is named, where it is being read, by its key."""

    def __init__(self, front):
        super().__init__(front)
        self.reads_contents = self.refusals.goes_on = True
        self.reading = set()

    def use_of(self, module, name):
        key = self.home(module, name), name
        found = self.typespec(*key)
        if found is None:
            with placed(key[0], self.defined[key]["pos"]):
                raise Refused(f"{name} is no type without parameters")
        return self.once(key, found, {}, (name,))

    def once(self, key, node, given, path):
        """Returns the use of a definition, which is read once for what is given for its parameters."""
        if key in self.reading:
            return Use(self.outline(node, key[0], given), key, tags=self.tags_of(node, given))
        if key not in self.cache and key not in self.failed:
            self.reading.add(key)
            before = len(self.refusals.found)
            try:
                with placed(key[0], self.defined[key[0], path[0]]["pos"]), known_forms(path[0]):
                    self.cache[key] = self.type(node, key[0], given, path)
            except Refused as why:
                self.refusals.found.append(why)
            finally:
                self.reading.remove(key)
            self.fail(key, self.refusals.found[before:])
            del self.refusals.found[before:]
        return Use(self.full(key).type, key, tags=self.full(key).tags)

    def fail(self, key, refused):
        """Refuses a definition, where anything was refused in it."""
        if refused:
            self.cache.pop(key, None)
            self.failed[key] = refused[0] if len(refused) == 1 else Several(str(all_of(refused)))

    def full(self, key):
        """Returns what stands at a key that was read, or refuses it again."""
        if key in self.failed:
            raise self.failed[key]
        return self.cache[key]

    def whole(self, use):
        """Returns the type of a use, all of it where it was still being read when it was named."""
        if not use.name or use.own and use.type.kind not in LISTS:
            return use.type
        found = self.full(use.name).type
        return replace(found, limits=use.type.limits) if use.own else found

    def ordered(self, of):
        """Returns the root alternatives of a CHOICE in the order of X.691 23.5, the other parts as they stand."""
        return sorted(of.parts, key=self.smallest_tag) if of.kind == "CHOICE" else of.parts

    def smallest_tag(self, part):
        if part.outer:
            return CLASSES.index(part.outer[0]), part.outer[1]
        of = self.whole(part.use)
        return min(map(self.smallest_tag, of.parts)) if of.kind == "CHOICE" and of.parts else (len(CLASSES), 0)

    def outline(self, node, module, given):
        """Returns of a type that is being read its kind and constraints."""
        head = kind(node["def"])
        if head in (*RECORDS, "CHOICE", *LISTS, "OCTET STRING"):
            found = Type(head)
        elif head == "Externaltypereference" and node["def"]["type"] not in given:
            home = self.home(node["def"]["module"], node["def"]["type"])
            found = self.outline(self.typespec(home, node["def"]["type"]), home, {})
        elif head == "pt":
            home = self.home(parts(node["def"])[0]["module"], parts(node["def"])[0]["type"])
            found = Type(self.outline(self.defined[home, parts(node["def"])[0]["type"]]["typespec"], home, {}).kind)
        else:
            raise Refused("a type is made of itself alone")
        return Type(found.kind, self.limited(found.limits, node["constraint"], module, given, found.kind, {}))

    def tags_of(self, node, given):
        """Returns the tags of a type that is being read."""
        if node["tag"]:
            return [(tag["class"], tag["number"]) for tag in node["tag"]]
        if kind(node["def"]) == "Externaltypereference" and node["def"]["type"] not in given:
            home = self.home(node["def"]["module"], node["def"]["type"])
            return self.tags_of(self.typespec(home, node["def"]["type"]), {})
        return None

    def type(self, node, module, given, path=()):
        use = super().type(node, module, given, path)
        if kind(node["def"]) != "ObjectClassFieldType":
            return use
        reference = node["def"]["class"] if kind(node["def"]["class"]) else node["def"]["classname"]
        found = table_constraint(node["constraint"])
        return Governed(
            **vars(use), field=parts(node["def"]["fieldname"][0])[0], owner=self.class_key(reference),
            objects=(found[0], module, given) if found else None, chooser=found[1] if found else "",
        )

    def without_constraints(self, definition, module, given, path):
        head = OTHER_NAMES.get(kind(definition), kind(definition))
        if head == "SET":
            found = self.record(definition["components"], module, given, path)
            return Use(Type("SET", parts=found.parts, added=found.added))
        if head in MORE_STRINGS:
            return Use(Type(head))
        if head in MISSING:
            raise Refused(f"{'.'.join(path)} is of the type {head}, which a schema file doesn't have")
        return super().without_constraints(definition, module, given, path)

    # Types with parameters.

    def instance(self, definition, module, given, path):
        """Returns a type with parameters at what is given for them, object sets too: one for each of these."""
        reference, actual_ones = parts(definition)
        home = self.home(reference["module"], reference["type"])
        found, inner, words = self.defined[home, reference["type"]], {}, []
        for parameter, actual in zip(found["args"], actual_ones):
            dummy = parameter if kind(parameter) else parameter["t"][1]
            if kind(actual) == "Externaltypereference":
                actual = {"_": "type", "tag": [], "def": actual, "constraint": []}
            inner[dummy.get("type") or dummy.get("value")] = self.given_for(actual, module, given)
            words.append(self.spelled(*inner[dummy.get("type") or dummy.get("value")]))
        if len(self.reading) > DEEPEST:
            raise Refused(f"{reference['type']} stands in itself, each time with other parameters, without an end")
        key = home, f"{reference['type']} {{{', '.join(words)}}}"
        return self.once(key, found["typespec"], inner, (reference["type"],))

    def given_for(self, node, module, given):
        """Returns what is given for a parameter, and where it stands; behind parameters that it names alone."""
        inner = parts(node)[0] if kind(node) in ("valueset", "objectset") else node
        inner = parts(inner)[0] if kind(inner) == "element_set" and parts(inner)[1] in ("none", "empty") else inner
        reference = reference_of(inner)
        name = reference["type"] if reference else node["value"] if kind(node) == "Externalvaluereference" else None
        return given[name] if name in given else (node, module, given)

    def spelled(self, node, module, given):
        """Returns a text of what is given for a parameter that is the same where it is."""
        if kind(node) in ("Externaltypereference", "Externalvaluereference"):
            name = node.get("type") or node.get("value")
            if name in given:
                return self.spelled(*given[name])
            return f"{node['module']}.{name}"
        if isinstance(node, dict):
            inner = [self.spelled(it, module, given) for key, it in node.items() if key not in ("pos", "tablecinf", "inlined")]
            return f"({' '.join(inner)})"
        if isinstance(node, list):
            return f"[{' '.join(self.spelled(it, module, given) for it in node)}]"
        return str(node)

    # Lists of parts, which keep the order of the text, and their tags.

    def record(self, nodes, module, given, path):
        root, added = self.listed(nodes, module, given, path)
        self.tagged(root, added, module)
        return Type("SEQUENCE", parts=root, added=added)

    def choice(self, nodes, module, given, path):
        root, added = self.listed(nodes, module, given, path)
        if added is not None:
            added = [it for part in added for it in (part.group or [part])]
        self.tagged(root, added, module)
        return Type("CHOICE", parts=root, added=added)

    def tagged(self, root, added, module):
        """Gives parts their tags: by place where none is written (X.680 25.7), a group counted as one, else the outermost."""
        flat = [*root, *(added or [])]
        by_place = is_by_place(flat, self.automatic[module])
        for parts_there in [flat, *(part.group or [] for part in flat)]:
            for number, part in enumerate(parts_there):
                part.outer = ("CONTEXT", number) if by_place else outermost(part)

    @staticmethod
    def group_type(found):
        """Returns the type of a group."""
        return Type("SEQUENCE", parts=found)


def outermost(part: Part):
    """Returns the class and number of a part's outermost tag; None of an untagged CHOICE, an open type and a group."""
    if part.group is not None:
        return None
    number = {**UNIVERSAL, **MORE_TAGS}.get(part.use.type.kind)
    return part.use.tags[0] if part.use.tags else None if number is None else ("UNIVERSAL", number)
