"""Holds what resolve.py makes of definitions against what asn1ct made of the same text, part by part. It shares nothing with
what it judges but the text as it was parsed."""
from judgement import Reading
from notation import kind, parts

OTHER_NAMES = {"ISO646String": "VisibleString", "T61String": "TeletexString"}
OPEN = ("ObjectClassFieldType", "ASN1_OPEN_TYPE", "ANY")
# Those of which PER sees no constraint.
UNSEEN = ("UTF8String", "OPEN", "UTCTime", "GeneralizedTime")
CLASSES = ("UNIVERSAL", "APPLICATION", "CONTEXT", "PRIVATE")


def presence_of(prop):
    return "optional" if prop == "OPTIONAL" else "default" if kind(prop) == "DEFAULT" else "required"


def default_of(default, of):
    """Returns a default as asn1ct has it."""
    if isinstance(default, bool):
        return str(default).lower()
    if of == "BIT STRING":
        *whole, last = bytes(int(default[at : at + 8].ljust(8, "0"), 2) for at in range(0, len(default), 8)) or b"\0"
        rest = len(default) % 8
        if rest:
            return f"<<{','.join([*map(str, whole), f'{last >> 8 - rest}:{rest}'])}>>"
        return {"b": bytes([*whole, last][: len(default) // 8]).hex().upper()}
    if isinstance(default, bytes):
        return {"b": default.hex().upper()}
    if isinstance(default, tuple):
        return {"t": [*default]} if of == "OBJECT IDENTIFIER" else [*default]
    return default


def in_words(what):
    """Returns what is compared as it is told."""
    if isinstance(what, dict):
        return in_words(what.get("b", what.get("t", "another")))
    if isinstance(what, list):
        return ", ".join(map(in_words, what)) or "none"
    if isinstance(what, bool):
        return "there" if what else "not there"
    return "none" if what is None else str(what)


def bounds_in_words(bounds):
    if not isinstance(bounds, tuple):
        return bounds or "none"
    low, high, marked = bounds
    return f"{'MIN' if low is None else low}..{'MAX' if high is None else high}{', ...' if marked else ''}"


def letters_in_words(alphabet):
    if alphabet is None:
        return "all characters"
    return f"{len(alphabet)} characters, {', '.join(map(str, alphabet[:20]))}{', ..' if len(alphabet) > 20 else ''}"


def in_order(nodes):
    """Returns the alternatives of asn1ct's in the order of their tags (X.691 23.5), which asn1ct doesn't put them into."""
    if not all(isinstance(it.get("tags"), list) and it["tags"] for it in nodes):
        return nodes
    return sorted(nodes, key=lambda it: min((CLASSES.index(tag["t"][0]), tag["t"][1]) for tag in it["tags"]))


class Agreement:
    """Differences, each a line, and how many parts were compared. `unjudged` has those that asn1ct doesn't know."""

    def __init__(self, front):
        self.front, self.compared, self.found, self.instances, self.unjudged = front, 0, [], set(), []
        self.reading = Reading(self.followed)

    def say(self, at, what, ours, theirs):
        if ours != theirs:
            self.found.append(f"{at}: {what}: {in_words(ours)} here, {in_words(theirs)} of asn1ct")

    def followed(self, node):
        """Returns a type of asn1ct's behind its references, with all constraints on the way, the last put on first."""
        constraints = [*reversed(node["constraint"])]
        while kind(node["def"]) == "Externaltypereference":
            reference = node["def"]
            found = self.front.get(reference["module"], {}).get("checked", {}).get(reference["type"])
            if not found or kind(found.get("typespec")) != "type":
                break
            node = found["typespec"]
            constraints += reversed(node["constraint"])
        return node["def"], constraints

    def use(self, use, node, at, is_whole=False):
        """Compares a type where it is used; what a name stands for is compared where that is defined."""
        of, (definition, constraints) = use.type, self.followed(node)
        head = OTHER_NAMES.get(kind(definition), kind(definition))
        head = "OPEN" if head in OPEN else head
        self.compared += 1
        if (of.kind, head) == ("DATE", "NULL"):
            self.unjudged.append(at)
            return
        self.say(at, "the type", of.kind, head)
        if head != of.kind:
            return
        self.limits(of, constraints, at)
        if use.name and not is_whole and not self.is_new_instance(use.name):
            return
        if of.kind == "ENUMERATED":
            self.items(of, parts(definition)[0], at)
        elif of.kind in ("SEQUENCE OF", "SET OF"):
            self.use(of.element, parts(definition)[0], f"{at}[]")
        elif of.kind in ("SEQUENCE", "SET", "CHOICE"):
            self.lists(of, parts(definition)[0] if of.kind == "CHOICE" else definition["components"], at)

    def limits(self, of, constraints, at):
        """Compares the constraints that PER sees."""
        if of.kind in UNSEEN:
            return
        value, size, alphabet = self.reading.of(constraints, of.kind)
        self.say(at, "the bounds", bounds_in_words(of.limits.value), bounds_in_words(value))
        self.say(at, "the size", bounds_in_words(of.limits.size), bounds_in_words(size))
        self.say(at, "the alphabet", letters_in_words(of.limits.alphabet), letters_in_words(alphabet))

    def is_new_instance(self, name):
        """Returns whether it is the first time that a type with parameters stands for what is given (whole.py)."""
        is_new = "{" in name[1] and name not in self.instances
        self.instances.add(name)
        return is_new

    def items(self, of, items, at):
        root, added = items["t"] if isinstance(items, dict) else (items, None)
        names = [None if side is None else [it["t"][0] for it in side] for side in (root, added)]
        self.say(at, "the items", [of.items, of.added_items], names)

    def lists(self, of, components, at):
        """Compares the components or alternatives of both sides of a marker."""
        root, added, *second = components["t"] if isinstance(components, dict) else (components, None)
        self.say(at, "the marker", of.added is not None, added is not None)
        mine = [it for part in of.added or [] for it in (part.group or [part])]
        root = [*root, *sum(second, [])]
        for ours, theirs, where in ((self.root_of(of), root, "the root"), (mine, added or [], "the additions")):
            theirs = [it for it in theirs if kind(it) == "ComponentType"]
            if of.kind == "SET":    # asn1ct sorts them by their tags
                ours, theirs = sorted(ours, key=lambda it: it.name), sorted(theirs, key=lambda it: it["name"])
            elif of.kind == "CHOICE" and where == "the root" and not self.is_automatic(ours):
                theirs = in_order(theirs)
            names = [it.name for it in ours], [it["name"] for it in theirs]
            self.say(at, where, *names)
            for part, node in zip(ours, theirs) if names[0] == names[1] else []:
                self.part(part, node, f"{at}.{part.name}")

    def root_of(self, of):
        """Returns the parts of a root in the order in which PER has them, or has their bits."""
        return of.parts

    def is_automatic(self, parts):
        """Returns whether alternatives have automatic tags, which asn1ct forgets of a type with parameters that is imported."""
        is_written = any(part.tags for part in parts)
        return not is_written and all(self.front[part.module]["parsed"]["tagdefault"] == "AUTOMATIC" for part in parts)

    def part(self, part, node, at):
        presence = presence_of(node["prop"])
        self.say(at, "the presence", part.presence, presence)
        if presence == "default":
            self.default(part, parts(node["prop"])[0], at)
        self.use(part.use, node["typespec"], at)

    def default(self, part, theirs, at):
        of, ours = part.use.type, default_of(part.default, part.use.type.kind)
        if of.kind == "BIT STRING" and isinstance(theirs, list):
            ours = [name for name, place in of.names.items() if part.default[place : place + 1] == "1"]
            theirs = [name for name in of.names if name in theirs]
        self.say(at, "the default", ours, theirs)


def reading_of(front, module, name):
    """Returns asn1ct's reading of a definition alone: its kind, bounds, size and alphabet."""
    agreement = Agreement(front)
    definition, constraints = agreement.followed(front[module]["checked"][name]["typespec"])
    of = OTHER_NAMES.get(kind(definition), kind(definition))
    return of, *agreement.reading.of(constraints, of)


def differences(modules, front, names):
    """Returns what came of the comparison of the definitions of these names."""
    agreement = Agreement(front)
    for module, name in names:
        checked = front[module].get("checked", {}).get(name)
        if checked and checked.get("_") == "typedef" and kind(checked["typespec"]) == "type":
            place = f"{module}, line {modules.defined[module, name]['pos']}: {name}"
            agreement.use(modules.cache[module, name], checked["typespec"], place, is_whole=True)
    return agreement
