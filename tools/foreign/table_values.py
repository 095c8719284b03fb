"""Values of the types of whole modules, which may be deep, may hold themselves, and know which types their open types
hold."""
from items import Items
from notation import parts
from objects import type_node
from resolve import Type, Use
from values import Chooser, Held
from whole import LISTS, RECORDS, Governed

# Levels in which all may be there that a value of most has, and those behind which it is the least that there is.
WIDE, DEEP = 2, 16


def inner_uses(of):
    """Returns the uses of the types of which a type is made."""
    return [*(part.use for part in of.all_parts), *filter(None, (of.element, of.contained))]


def is_known(use, modules):
    """Returns whether asn1ct knows the objects of an open type: there is a set of them, and a field tells them
    apart."""
    return bool(use.objects) and any("UNIQUE" in parts(it) for it in modules.class_of(use.owner)["fields"])


def tied(modules):
    """Puts whole types in the place of those that were being read where they were named, so that types that hold
    themselves do. Groups of additions get a name and a type, and components of a SET the places that asn1ct gives them:
    by their tags. Open types of which asn1ct knows no objects have no note. Returns all types."""
    found, left = {}, [*modules.cache.values()]
    while left:
        use = left.pop()
        is_free = isinstance(use, Governed) and use.type.kind == "OPEN" and not is_known(use, modules)
        use.type = of = Type("OPEN") if is_free else modules.whole(use)
        if id(of) in found:
            continue
        found[id(of)] = of
        for number, part in enumerate(of.all_parts):
            if part.group is not None and part.use is None:
                part.name, part.use = Items.group_name(of, number), Use(Type("SEQUENCE", parts=part.group))
        for place, part in enumerate(sorted(of.parts, key=modules.smallest_tag) if of.kind == "SET" else []):
            part.place = place
        left += inner_uses(of)
    return [*found.values()]


def height(of, heights):
    """Returns how deep the least value of a type is, by what is known of others; None where that says nothing yet."""
    if of.kind == "CHOICE":
        known = [heights[id(part.use.type)] for part in of.all_parts if id(part.use.type) in heights]
        return min(known) + 1 if known else None
    needed = []
    if of.kind in RECORDS:
        needed = [part.use for part in of.all_parts if part.presence == "required" and part.group is None]
    elif of.contained or of.kind in LISTS and of.limits.size and of.limits.size[0] > 0:
        needed = [of.contained or of.element]
    known = [heights.get(id(use.type)) for use in needed]
    return None if None in known else max(known, default=0) + 1


def heights_of(types):
    """Returns how deep the least value of each type is, by the types' identities."""
    found, left = {}, types
    while left:
        new = {id(of): height(of, found) for of in left}
        found.update({of: deep for of, deep in new.items() if deep is not None})
        before, left = len(left), [of for of in left if id(of) not in found]
        if len(left) == before:
            break
    return found


class ObjectSets:
    """What the object sets of open types know."""

    def __init__(self, modules):
        self.modules, self.found = modules, {}

    def of(self, record):
        """Returns the name of the component by which the set of a record's open types knows objects, and of each object
        its number and the types of these open types, by their names."""
        if id(record) not in self.found:
            governed = [it for it in record.parts if it.use.type.kind == "OPEN" and it.use.type.note]
            chooser = next((it for it in record.parts if governed and it.name == governed[0].use.chooser), None)
            is_known = chooser is not None and chooser.use.type.kind == "INTEGER"
            self.found[id(record)] = (chooser.name, [*self.objects(chooser, governed)]) if is_known else ("", [])
        return self.found[id(record)]

    def objects(self, chooser, governed):
        """Gives each object that says of all open types which type they have: one that has a name, or holds no
        others."""
        names = [chooser.use.field, *(it.use.field for it in governed)]
        for fields, module in self.modules.members(*governed[0].use.objects, governed[0].use.owner):
            if all(name in fields for name in names):
                nodes = [type_node(fields[name]) for name in names[1:]]
                uses = [self.modules.type(node, module, {}, (name,)) for node, name in zip(nodes, names[1:])]
                if all(use.name and not use.own or not inner_uses(use.type) for use in uses):
                    yield self.modules.number(fields[names[0]], {}), {it.name: use for it, use in zip(governed, uses)}


class TableChooser(Chooser):
    """Chooses values of such types: below some levels, and where no room is left, the least that there is. Elements of
    a SET OF are alike, as asn1ct keeps the order in which they are given. `heights` are those of all types."""

    def __init__(self, manner, seed, heights, sets):
        super().__init__(manner, seed)
        self.level, self.heights, self.sets = 0, heights, sets

    @property
    def is_small(self):
        return self.level > DEEP or self.level > WIDE and self.room <= 0

    def value(self, use):
        self.level += 1
        try:
            return super().value(use)
        finally:
            self.level -= 1

    def size(self, of, few):
        least = of.limits.size[0] if of.limits.size else 0
        return least if self.is_small else super().size(of, few)

    def is_there(self):
        return not self.is_small and super().is_there()

    def alternative(self, of):
        if not self.is_small:
            return super().alternative(of)
        part = min(of.all_parts, key=lambda it: self.heights[id(it.use.type)])
        return part.name, self.value(part.use)

    def list(self, of):
        found = super().list(of)
        return found[:1] * len(found) if of.kind == "SET OF" else found

    def record(self, of):
        """Returns a record, of whose open types one object of their set says what they hold."""
        found, (chooser, objects) = super().record(of), self.sets.of(of)
        if objects and self.level <= 2 * DEEP:
            number, uses = self.one(objects[0], objects[-1], lambda: objects)
            found[chooser] = number
            found.update({name: Held(use, self.value(use)) for name, use in uses.items() if name in found})
        return found
