"""Which types are wanted, by the words of a call of the compiler, and the crate of each."""
import collections

from items import Items
from notation import Refused, needed, read_modules


def name_of(word):
    """Returns the module and the name of a type that is written with a dot between them."""
    module, dot, name = word.partition(".")
    if not dot or not name:
        raise Refused(f"{word} isn't written MODULE.NAME")
    return module, name


def crate_word(word):
    """Returns the module and the crate of a word MODULE[.NAME]=CRATE, and the name or an empty text."""
    where, equals, crate = word.partition("=")
    if not equals or not crate.isidentifier():
        raise Refused(f"--crate {word} isn't written MODULE=CRATE or MODULE.NAME=CRATE")
    return (*name_of(where), crate) if "." in where else (where, "", crate)


def modules_wanted(files, types, crates):
    """Returns the texts of the modules of these files that the words of a call need, by their names."""
    wanted = [name_of(word)[0] for word in types.split(",")] + [crate_word(word)[0] for word in crates]
    return needed(read_modules(files), wanted)


def wanted_items(modules, types, crates):
    """Returns the items of the wanted types, with all that they need, each in its crate. What is wanted is read by itself,
    as is what an open type holds."""
    placed = [crate_word(word) for word in crates]
    items = Items(modules, {module: crate for module, name, crate in reversed(placed) if not name})
    for module, name, crate in placed:
        before = items.crates
        for home, one in modules.types_of(module, name) if name else []:
            with modules.refusals.kept():
                use = modules.use_of(home, one)
                items.crates = {**before, use.name[0]: crate}
                items.add(use)
        items.crates = before if name else {**before, module: crate}
    for word in types.split(","):
        for home, one in modules.types_of(*name_of(word)):
            with modules.refusals.kept():
                items.add(modules.use_of(home, one))
    for word in [*map(name_of, types.split(",")), *modules.object_sets]:
        items.bind(modules.types_of(*word))
    return items


def crates_of(items):
    """Returns the items of each crate, and the crates that each needs; refused where crates need one another."""
    crates, needs = collections.defaultdict(list), collections.defaultdict(set)
    for item in items.order:
        crates[item.crate].append(item)
        needs[item.crate] |= {it.crate for it in item.needs} - {item.crate}
    done = []
    while len(done) < len(crates):
        free = [crate for crate in crates if crate not in done and needs[crate] <= set(done)]
        if not free:
            raise Refused(f"these crates need one another: {', '.join(sorted(set(crates) - set(done)))}")
        done += free
    return {crate: crates[crate] for crate in done}, {crate: sorted(needs[crate]) for crate in done}
