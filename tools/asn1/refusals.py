"""What the compiler doesn't take: each a reason with its place, and all of them told at once."""
import contextlib


class Refused(Exception):
    """What this compiler doesn't take: the reason and, where it is known, the place."""

    def __init__(self, reason):
        super().__init__(reason)
        self.place = None

    def __str__(self):
        return ": ".join(filter(None, [self.place, super().__str__()]))


def all_of(refused):
    """Returns one refusal that says what these say, each thing once, in the order of the places."""
    lines = dict.fromkeys(map(str, sorted(refused, key=order_of)))
    return Refused("\n".join(lines))


def order_of(why):
    """Returns what refusals are sorted by: the module, and the line."""
    module, _, line = (why.place or "").partition(", line ")
    return module, int(line) if line.isdigit() else 0


@contextlib.contextmanager
def placed(module, line):
    """Says of what is refused within where it stands, unless a nearer place is known."""
    try:
        yield
    except Refused as why:
        why.place = why.place or f"{module}, line {line}"
        raise


class Refusals:
    """What was refused so far, so that all of it can be told at once. The rest is read on where it `goes_on`; whoever says so
    has to call `end`, since what is refused is left out of what is read."""

    def __init__(self, goes_on=False):
        self.found, self.goes_on = [], goes_on

    @contextlib.contextmanager
    def kept(self, module=None, line=None):
        """Keeps what is refused within, and goes on behind it, or refuses it."""
        try:
            yield
        except Refused as why:
            if module:
                why.place = why.place or f"{module}, line {line}"
            if not self.goes_on:
                raise
            self.found.append(why)

    def end(self, more=()):
        """Refuses where anything was, or is of `more`, which says nothing of lines of which something is said already."""
        places = {why.place for why in self.found}
        found = [*self.found, *(why for why in more if why.place not in places)]
        if found:
            raise all_of(found)
