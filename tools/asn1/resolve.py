"""What the types of ASN.1 modules are: references followed, parameters put in, constraints that PER sees computed, tags
numbered. All comes from what was parsed; what asn1ct made of the same text is held against it afterwards (agree.py), and
neither is taken from the other."""
import contextlib
import json
from copy import deepcopy
from dataclasses import replace

from constraints import LETTERS, Constraints
from definitions import Bits, actual_type
from model import UNREAD, Part, Type, Use
from notation import Refused, kind, parts, placed, spelled
from tags import in_order, numbered

PLAIN = {"BOOLEAN", "NULL", "OBJECT IDENTIFIER", "UTCTime", "GeneralizedTime", "UTF8String", "TeletexString", "GraphicString",
         "GeneralString", "DATE", "OCTET STRING", *LETTERS}
# Those whose values are texts.
TEXTS = ("UTF8String", *LETTERS)
OTHER_NAMES = {"ISO646String": "VisibleString", "T61String": "TeletexString"}
MOST_NUMBER = 1 << 31
# How deep types with parameters may stand in one another: behind it, they never end.
DEEPEST = 60
# What comes of a form of the parser's that is read nowhere here.
UNKNOWN = (KeyError, TypeError, ValueError, IndexError, AttributeError, StopIteration, RecursionError)


class Modules(Constraints):
    """The types of all modules. `given` is what stands for the parameters of the definition that is read, by their names:
    what was given, and the module and the parameters where it was. A part of a list that is refused goes to `refusals`, and
    is left out where these go on. With `sorts` the alternatives of a CHOICE are put into the order of their tags."""

    def __init__(self, front, reads_contents=False, sorts=False):
        super().__init__(front)
        self.cache, self.reads_contents, self.sorts = {}, reads_contents, sorts
        self.failed, self.instances = {}, []

    def use_of(self, module, name):
        """Returns the use of a definition by its name."""
        key = self.home(module, name), name
        if key in self.failed:
            raise self.failed[key]
        if key not in self.cache:
            self.read(key)
        if self.cache[key] is None:
            raise Refused(f"{name} holds itself, which needs a page by hand")
        return Use(self.cache[key].type, key, tags=self.cache[key].tags)

    def read(self, key):
        """Reads a definition into the cache, which has None for it while it is read."""
        found = self.typespec(*key)
        self.cache[key] = None
        try:
            with placed(key[0], self.defined[key]["pos"]), known_forms(key[1]):
                if found is None:
                    raise Refused(f"{key[1]} is no type without parameters")
                self.cache[key] = self.type(found, key[0], {}, (key[1],))
        except Refused as why:
            self.failed[key] = why
            raise
        finally:
            if self.cache[key] is None:
                del self.cache[key]

    def type(self, node, module, given, path=()):
        """Returns the use of a type that is written here."""
        use = self.without_constraints(node["def"], module, given, path)
        before = use.type.limits
        limits = self.limited(before, node["constraint"], module, given, use.type.kind, use.type.names)
        if limits != before:
            use = replace(use, type=replace(use.type, limits=limits), own=use.name is not None)
        elif (limits.numbers, limits.sizes) != (before.numbers, before.sizes):
            use = replace(use, type=replace(use.type, limits=limits))
        contents = self.contents(use.type, node["constraint"], module, given, path)
        if contents is not use.type.contents:
            of = replace(use.type, contents=contents)
            use = replace(use, type=of) if use.own else Use(of)
        tags = [(tag["class"], tag["number"]) for tag in node["tag"]]
        return replace(use, tags=tags) if tags else use

    def contents(self, of, constraints, module, given, path):
        """Returns what octets of a type contain under constraints that are put behind it (X.682 11): the use of a type;
        UNREAD where there is a size, ENCODED BY or more than one CONTAINING; or None."""
        found = [parts(it) for it in constraints if kind(it) == "contentsconstraint"]
        if not self.reads_contents or of.kind != "OCTET STRING" or not found and not of.contents:
            return None
        if of.limits.size or found and (of.contents or len(found) > 1 or found[0][1]):
            return UNREAD
        return self.type(found[0][0], module, given, (*path, "Contents")) if found else of.contents

    def without_constraints(self, definition, module, given, path):
        head = kind(definition)
        head = OTHER_NAMES.get(head, head)
        if head == "Externaltypereference":
            return self.reference(definition, given, path)
        if head == "pt":
            return self.instance(definition, module, given, path)
        if head in ("INTEGER", "BIT STRING"):
            named = [parts(it) for it in parts(definition)[0]] if parts(definition) else []
            return Use(Type(head, names={name: self.number(number, given) for name, number in named}))
        if head in PLAIN:
            return Use(Type(head))
        if head == "ENUMERATED":
            return Use(self.enumerated(parts(definition)[0], given))
        if head == "SEQUENCE":
            return Use(self.record(definition["components"], module, given, path))
        if head == "CHOICE":
            return Use(self.choice(parts(definition)[0], module, given, path))
        if head in ("SEQUENCE OF", "SET OF"):
            return Use(Type(head, element=self.type(parts(definition)[0], module, given, (*path, "Item"))))
        if head == "ObjectClassFieldType":
            return self.class_field(definition)
        if head in ("ANY", "ASN1_OPEN_TYPE"):
            return Use(Type("OPEN", note="ANY"))
        raise Refused(f"{'.'.join(path)} is of the type {spelled(definition if parts(definition) else head)}, of which no page is written")

    def reference(self, definition, given, path):
        """Returns the use of the type that a name stands for."""
        module, name = definition["module"], definition["type"]
        if name in given:
            return self.type(*given[name], path)
        found = self.defined[self.home(module, name), name]
        if found["_"] == "typedef" and kind(found["typespec"]) == "type" and self.is_date(found["typespec"]):
            return Use(Type("DATE"))
        if found["_"] == "valuedef" and path:
            raise Refused(f"{name} is a value set, of which asn1ct gives no answer where it is a type")
        return self.use_of(module, name)

    def instance(self, definition, module, given, path):
        """Returns a type with parameters, at what is given for them. Object sets say what an open type may hold, and leave
        no trace in an encoding: a type that has these alone is one type for all."""
        reference, actual_ones = parts(definition)
        home = self.home(reference["module"], reference["type"])
        found, inner, is_one = self.defined[home, reference["type"]], {}, True
        for parameter, actual in zip(found["args"], actual_ones):
            dummy = parameter if kind(parameter) else parameter["t"][1]
            if kind(actual) in ("valueset", "objectset"):
                self.note_set(actual, module, given)
            else:
                is_one = False
            inner[dummy.get("type") or dummy.get("value")] = self.actual(actual_type(actual), module, given)
        with once(self.instances, reference["type"], (home, reference["type"], json.dumps([it[:2] for it in inner.values()]))):
            if not is_one:
                return self.type(found["typespec"], home, inner, path)
            key = home, reference["type"]
            if key not in self.cache:
                with placed(home, found["pos"]):
                    self.cache[key] = self.type(found["typespec"], home, inner, (reference["type"],))
            return Use(self.cache[key].type, key)

    @staticmethod
    def actual(node, module, given):
        """Returns what is given for a parameter, and where it stands; behind a parameter that it names alone."""
        is_bare = kind(node) == "type" and not node["tag"] and not node["constraint"]
        found = node["def"] if is_bare else node
        name = found.get("type") or found.get("value") if kind(found) in ("Externaltypereference", "Externalvaluereference") else None
        return given[name] if name in given else (node, module, given)

    def class_field(self, definition):
        """Returns the type of a field of an information object class, or an open type where each object says its own."""
        reference = definition["class"] if kind(definition["class"]) else definition["classname"]
        module, name = reference["module"], parts(definition["fieldname"][0])[0]
        for one in self.find(module, reference["type"])["typespec"]["fields"]:
            if parts(one)[0] == name:
                if kind(one) in ("fixedtypevaluefield", "object_or_fixedtypevalue_field"):
                    home = self.home(module, reference["type"]) if reference["type"] != "TYPE-IDENTIFIER" else module
                    return self.type(parts(one)[1], home, {}, (name,))
                return Use(Type("OPEN", note=f"{reference['type']}.&{name}"))
        raise Refused(f"{reference['type']} has no field {name}")

    def enumerated(self, nodes, given):
        """Returns the items in the order of X.680 20: those of the root by their numbers, then those behind the marker."""
        sides = [[]]
        for node in nodes:
            if kind(node) == "EXTENSIONMARK":
                sides.append([])
            else:
                sides[-1].append([node, None] if isinstance(node, str) else [parts(node)[0], self.number(parts(node)[1], given)])
        if len(sides) > 2:
            raise Refused("an ENUMERATED with two markers isn't taken")
        taken = {number for _, number in sides[0]}
        free = (it for it in range(MOST_NUMBER) if it not in taken)
        for item in sides[0]:
            item[1] = next(free) if item[1] is None else item[1]
        taken, last = {number for _, number in sides[0]}, -1
        for item in sides[-1] if len(sides) == 2 else []:
            if item[1] is None:
                item[1] = next(it for it in range(last + 1, MOST_NUMBER) if it not in taken)
            last = item[1]
        for side in sides:
            side.sort(key=lambda item: item[1])
        names = [[name for name, _ in side] for side in sides]
        return Type("ENUMERATED", items=names[0], added_items=names[1] if len(names) == 2 else None, names=dict(sum(sides, [])))

    def listed(self, nodes, module, given, path):
        """Returns the components or alternatives of a list: those of the root, and those behind the marker or None."""
        sides, group = [[]], None
        for node in nodes:
            head = kind(node)
            if head == "EXTENSIONMARK":
                sides.append([])
            elif head == "ExtensionAdditionGroup":
                group = []
            elif head == "ExtensionAdditionGroupEnd":
                sides[-1] += [Part(None, None, module, group[0].line, group=group)] if group else []
                group = None
            elif head == "ComponentType":
                with self.refusals.kept(module, node["pos"]), known_forms(node["name"]):
                    (sides[-1] if group is None else group).append(self.part(node, module, given, path))
            elif head == "COMPONENTS OF":
                (sides[-1] if group is None else group).extend(self.taken(parts(node)[0], module, given, path))
            else:
                raise Refused(f"{'.'.join(path)} has a part {spelled(node)}, which isn't taken")
        if len(sides) > 3:
            raise Refused(f"{'.'.join(path)} has more than two markers")
        for place, part in enumerate(sum(sides, [])):
            part.place = place
        return sides[0] + sum(sides[2:], []), sides[1] if len(sides) > 1 else None

    def taken(self, node, module, given, path):
        """Returns what COMPONENTS OF stands for: the components of a type's root (X.680 25.5)."""
        of = self.type(node, module, given, path).type
        if of.kind not in ("SEQUENCE", "SET"):
            raise Refused(f"COMPONENTS OF a {of.kind} isn't taken")
        return [replace(part, is_taken=True) for part in deepcopy(of.parts)]

    def part(self, node, module, given, path):
        use = self.type(node["typespec"], module, given, (*path, node["name"]))
        part = Part(node["name"], use, module, node["pos"])
        if node["prop"] == "OPTIONAL":
            part.presence = "optional"
        elif kind(node["prop"]) == "DEFAULT":
            part.presence, part.default = "default", self.default(parts(node["prop"])[0], use.type, given)
        if use.name is None or node["typespec"]["tag"]:
            part.tags = use.tags
        return part

    def default(self, node, of, given=None):
        """Returns a default: a bool, a number, an item's name, bits, octets, code points, or the numbers of an OBJECT
        IDENTIFIER; of other types what was parsed."""
        found = self.value(node, of.names, given)
        if of.kind == "BOOLEAN":
            return found == "true"
        if of.kind == "INTEGER":
            return of.names[found] if isinstance(found, str) and found in of.names else self.number(found, {})
        if of.kind == "BIT STRING":
            return self.named_bits(found, of) if isinstance(found, list) else self.bits(found)
        if of.kind == "OCTET STRING":
            return self.octets(found)
        if of.kind == "OBJECT IDENTIFIER":
            return self.arcs(found)
        return tuple(self.text(found)) if of.kind in TEXTS else found

    @staticmethod
    def named_bits(nodes, of):
        """Returns the bits that are set by their names, and as many that aren't as the size asks for."""
        places = {of.names[node["value"]] for node in nodes}
        length = max([*(place + 1 for place in places), of.limits.size[0] if of.limits.size else 0])
        return Bits("".join("01"[place in places] for place in range(length)))

    def record(self, nodes, module, given, path):
        root, added = self.listed(nodes, module, given, path)
        numbered(root, added, self.automatic[module])
        return Type("SEQUENCE", parts=root, added=added)

    def choice(self, nodes, module, given, path):
        root, added = self.listed(nodes, module, given, path)
        if added is not None:
            added = [it for part in added for it in (part.group or [part])]
        ordered = in_order(root, self.automatic[module])
        if ordered != root and not self.sorts:
            raise Refused(f"the tags of {'.'.join(path)}'s alternatives don't ascend: X.691 23.5 sorts them, asn1ct doesn't;"
                          " --sort takes them sorted")
        numbered(ordered, added, self.automatic[module])
        return Type("CHOICE", parts=ordered, added=added)


@contextlib.contextmanager
def once(reading, name, key):
    """Refuses a type with parameters where it is being read already with the same, or too many are."""
    if key in reading:
        raise Refused(f"{name} holds itself, which needs a page by hand")
    if len(reading) > DEEPEST:
        raise Refused(f"{name} stands in itself, each time with other parameters, without an end")
    reading.append(key)
    try:
        yield
    finally:
        reading.pop()


@contextlib.contextmanager
def known_forms(name):
    """Refuses what the parser says in a form that is read nowhere here."""
    try:
        yield
    except UNKNOWN as why:
        raise Refused(f"{name} is written in a form that isn't taken") from why
