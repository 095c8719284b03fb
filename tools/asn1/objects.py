"""Object sets: the objects that a set names (X.681), with what each says of the fields of its class, from what was parsed."""
from definitions import Definitions
from notation import Refused, kind, parts

# The class that every module has (X.681 Annex A).
BUILT_IN = "TYPE-IDENTIFIER"
IDENTIFIER = {"_": "type", "tag": [], "def": "OBJECT IDENTIFIER", "constraint": []}
SYNTAX = [{"t": ["typefieldreference", "Type"]}, "IDENTIFIED", "BY", {"t": ["valuefieldreference", "id"]}]
TYPE_IDENTIFIER = {
    "fields": [
        {"t": ["fixedtypevaluefield", "id", IDENTIFIER, "UNIQUE", "MANDATORY"]},
        {"t": ["typefield", "Type", "MANDATORY"]},
    ],
    "syntax": {"t": ["WITH SYNTAX", SYNTAX]},
}


def type_node(node):
    """Returns a type that is given in an object as a type that is written in a module."""
    return node if kind(node) == "type" else {"_": "type", "tag": [], "def": node, "constraint": []}


def bare(token):
    """Returns what a token of an object stands for."""
    return parts(token)[-1] if kind(token) in ("word_or_setting", "setting", "value_tag") else token


def matched(syntax, tokens, at, found):
    """Reads the tokens of an object from `at` by the syntax of its class (X.681 10.12). Returns where it ends, or None; what is
    said of fields goes to `found`."""
    for step in syntax:
        if isinstance(step, list):
            inner = {}
            end = matched(step, tokens, at, inner)
            if end is not None:
                at = end
                found.update(inner)
            continue
        if at >= len(tokens):
            return None
        if kind(step) in ("typefieldreference", "valuefieldreference"):
            found[parts(step)[0]] = bare(tokens[at])
        elif word_of(tokens[at]) != step:
            return None
        at += 1
    return at


def word_of(token):
    """Returns the word that a token may be, or None."""
    inner = bare(token)
    return inner["type"] if kind(token) == "word_or_setting" else inner if isinstance(inner, str) else None


class Objects(Definitions):
    """Object classes, objects and sets of the modules."""

    def class_key(self, reference):
        """Returns the module and the name of a class, behind other names for it."""
        if reference["type"] == BUILT_IN:
            return reference["module"], BUILT_IN
        module, name = self.home(reference["module"], reference["type"]), reference["type"]
        other = self.defined[module, name]["typespec"]
        is_other_name = kind(other) == "type" and kind(other["def"]) == "Externaltypereference"
        return self.class_key(other["def"]) if is_other_name else (module, name)

    def class_of(self, key):
        return TYPE_IDENTIFIER if key[1] == BUILT_IN else self.defined[key]["typespec"]

    def field_use(self, owner, name):
        """Returns the type of the values of a field of a class, or None where each object says a type."""
        for one in self.class_of(owner)["fields"]:
            if parts(one)[0] == name and kind(one) in ("fixedtypevaluefield", "object_or_fixedtypevalue_field"):
                return self.type(parts(one)[1], owner[0], {}, (name,))
        return None

    def members(self, node, module, given, owner):
        """Gives of each object of a set what it says of each field of the class, with the module where it stands."""
        head = kind(node)
        if head == "Externaltypereference":
            if node["type"] in given:
                yield from self.members(*given[node["type"]], owner)
            else:
                home = self.home(node["module"], node["type"])
                yield from self.members(self.defined[home, node["type"]]["typespec"]["set"], home, {}, owner)
        elif head in ("element_set", "union", "valueset", "objectset", "SingleValue"):
            for inner in parts(node):
                yield from self.members(inner, module, given, owner)
        elif head == "type":
            yield from self.members(node["def"], module, given, owner)
        elif head == "Externalvaluereference":
            home = self.home(node["module"], node["value"])
            yield from self.members(self.defined[home, node["value"]]["typespec"]["def"], home, {}, owner)
        elif head == "object":
            yield self.fields(node, owner), module
        elif head not in ("none", "empty", "EXTENSIONMARK") and not isinstance(node, int):
            raise Refused(f"the part {head} of an object set isn't taken")

    def fields(self, node, owner):
        """Returns what an object says of the fields of its class, by their names, defaults of the class too."""
        found = self.defaults_of(owner)
        style, tokens = parts(node)
        if style == "defaultsyntax":
            found.update({name: bare(token) for name, token in (it["t"] for it in tokens)})
        elif matched(parts(self.class_of(owner)["syntax"])[0], tokens, 0, found) != len(tokens):
            raise Refused(f"an object of the class {owner[1]} isn't written by its syntax")
        return found

    def defaults_of(self, owner):
        """Returns what an object of a class says of the fields of which it says nothing."""
        fields = [parts(it) for it in self.class_of(owner)["fields"]]
        return {field[0]: parts(field[-1])[0] for field in fields if kind(field[-1]) == "DEFAULT"}
