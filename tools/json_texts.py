"""JSON texts in one form, and those of vectors/values.tsv."""
import hashlib
import json
import sys

from repository import TOP

# A value of 200 levels is read.
sys.setrecursionlimit(20000)
VALUES = f"{TOP}/vectors/values.tsv"
# A longer text of a row is told by its digest.
MOST_CHARACTERS = 200
# A value of 200 levels.
NEST = {}
for _ in range(199):
    NEST = {"inner": NEST}
# The members of a type that may stand at their defaults, which X.697 leaves to the sender.
DEFAULTS = {
    "addd": {"a": 3},
    "deep": {"d": NEST},
    "def1": {"o": {"first": True, "second": False}},
    "def3": {"o": {"first": True, "second": False}},
    "default": {"a": 3},
}


def brief(text):
    """Returns a text, or what tells it."""
    if len(text) <= MOST_CHARACTERS:
        return text
    return f"sha256:{hashlib.sha256(text.encode()).hexdigest()}"


def text_of(type_name, value):
    """Returns a value's JSON in one form: members in the order of their names, those at their defaults left out, and
    those of a SET OF in order."""
    if type_name == "bag":
        value = sorted(value)
    if type_name in DEFAULTS:
        value = {name: it for name, it in value.items() if DEFAULTS[type_name].get(name) != it}
    return json.dumps(value, sort_keys=True, separators=(",", ":"))


def wanted():
    """Returns the JSON of each canonical encoding, as vectors/values.tsv tells both."""
    with open(VALUES, encoding="ascii") as it:
        rows = [line.rstrip("\n").split("\t") for line in it if not line.startswith("#")]
    return {(variant, type_name, octets): text for variant, type_name, octets, text in rows}


def judged(type_name, said):
    """Returns a reply in the form of vectors/values.tsv."""
    try:
        return brief(text_of(type_name, json.loads(said)))
    except (ValueError, AttributeError, TypeError):
        return f"no JSON of the type: {said[:80]}"
