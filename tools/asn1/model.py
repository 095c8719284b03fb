"""What the types of ASN.1 are, once references are followed and parameters put in."""
from dataclasses import dataclass, field

from constraints import Limits
from definitions import Bits

# What octets contain that stay octets.
UNREAD = "unread"


@dataclass
class Type:
    kind: str               # as in ASN.1: 'INTEGER', 'SEQUENCE', 'SEQUENCE OF'; 'OPEN' for a value whose type isn't known
    limits: Limits = Limits()
    names: dict = field(default_factory=dict)   # the numbers of named numbers, bits or items
    items: list = None      # of an ENUMERATED: the names of its root in the order of X.680 20
    added_items: list = None    # those behind the marker, where there is one
    parts: list = None      # the components or alternatives of the root
    added: list = None      # those behind the marker, where there is one: components and groups
    element: "Use" = None   # of a list
    note: str = ""          # of an open type: what it may hold
    contents: object = None # of octets: the use of the type that they contain, or UNREAD

    @property
    def all_parts(self):
        return [*(self.parts or []), *(self.added or [])]

    @property
    def contained(self):
        """The use of the type whose value octets are written as, or None."""
        return None if self.contents is UNREAD else self.contents

    @property
    def held_kind(self):
        """Its kind; 'NAMED BITS' for bits with names of which PER leaves out 0 bits at the end (X.680 22.7, X.691 16.2),
        which changes nothing under a size that is one number."""
        if self.contained:
            return "OCTET STRING (CONTAINING)"
        low, high, marked = self.limits.size or (None, None, True)
        is_trimmed = self.kind == "BIT STRING" and self.names and (low != high or marked)
        return "NAMED BITS" if is_trimmed else self.kind


@dataclass
class Use:
    """A type where it is used: by the name of a definition, or written there, with constraints of its own or none."""
    type: Type
    name: tuple = None      # the module and the name of the definition
    own: bool = False       # whether constraints stand here too
    tags: list = None       # class and number of each that is written
    item: object = None     # what it gets of a type that is written here (items.py)
    limited: object = None  # of a list's elements: the name for them under their constraints


@dataclass
class Part:
    """A component, an alternative or an addition group."""
    name: str
    use: Use
    module: str
    line: int
    presence: str = "required"
    default: object = None
    tags: list = None       # those written here
    tag: int = None         # the number of that which a page has
    outer: tuple = None     # class and number of the outermost that it has; None for a group and an open type
    group: list = None      # of an addition group: its components
    place: int = 0          # in the text, among the parts of its list
    is_taken: bool = False  # whether it stands here by COMPONENTS OF

    @property
    def is_slot(self):
        """Whether it may be absent, so that its field is an Option."""
        return self.presence == "optional" or self.group is not None

    @property
    def normal_default(self):
        """Its default; of named bits without 0 bits at their end but those that the size asks for (X.680 22.7, X.691 16.2)."""
        of = self.use.type
        if of.held_kind != "NAMED BITS":
            return self.default
        return Bits(self.default.rstrip("0").ljust(of.limits.size[0] if of.limits.size else 0, "0"))
