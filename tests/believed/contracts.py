"""The contracts of a repository: what `requires` and `ensures` say of functions and methods, and ghost fields of types."""

import re
from dataclasses import dataclass

from .definitions import WHOLE_PATH, Names, crates
from .items import Item, Items, blanked

# All that a function in reach of a caller may ask: that a column is reached, and that it may call the closure it is given.
REACHED = re.compile(r"\{\s*Reached (?:[\w.]+|\([^×⊎→↔∗]*\))\s*\}")
CALLABLE = re.compile(r"\{\s*(?:\([\w ]+ : [\w ]+\) → )*[A-Z]\w*\.(?:pre|IsAlwaysCallable) [^×⊎→↔∗≡≢≤<]*\}")
# How a type whose values a caller can write says the same of the column that they make.
SEEN = re.compile(r"\{\s*∥ Reached (?:[\w.]+|\([\w. ]+\)) ∥₁\s*\}")
ASKING = "can_"  # how the ghost members of traits begin that say when a method may be called
INVARIANT = "invariant"  # the ghost member of `Model` that is a fact of each value
USED = re.compile(r"pub use (\w+)::(?:\{([\w\s,]*)\}|(\w+))")
TYPES = ("struct", "enum", "trait", "type")
TRIALS = "trial"  # how the names of programs begin that only try the others


@dataclass
class Contract:
    """A function `crate::module::name`, a method `crate::Type::name` or a ghost field `crate::Type.name`, the clauses of its
    contract, and the names that its file brings in."""

    function: str
    clauses: list
    names: Names
    reachable: bool  # by another crate
    counts: bool  # among the contracts that say what must be believed
    trait: str = ""  # the trait that an impl block is of, where it is a method there
    silent: bool = False  # whether something else says what it gives: a ghost member of its block, or its trait
    asks: bool = False  # whether a ghost fact is asked of callers, as where they can write a value of its type

    @property
    def is_function(self):
        """Whether it is the contract of a function."""
        return not self.clauses or any(kind != "ghost" for kind, _ in self.clauses)

    @property
    def text(self):
        """All that the contract says."""
        return "\n".join(said for _, said in self.clauses)

    @property
    def lines(self):
        """How many lines that is."""
        return sum(said.count("\n") + 1 for _, said in self.clauses)


@dataclass
class Placed:
    """An item of a crate, the module in which it stands, and whether another crate can name it."""

    item: Item
    where: str
    nameable: bool


def of_module(file, where, reached, again):
    """The items below a file, and what is not understood; of a private module those can be named that are handed on."""
    text = blanked(file.read_text(encoding="utf-8"))
    read = Items(text, Names())
    strange = [f"{file.name}: {each}" for each in read.strange]
    handed = {}
    for used in (each for each in read.found if each.kind == "use" and each.public):
        if found := USED.fullmatch(used.text):
            handed.setdefault(found[1], set()).update(word.strip() for word in (found[2] or found[3]).split(","))
        else:
            strange.append(f"{file.name}: {used.text}")
    by_path = [line.strip() for line in text.splitlines() if WHOLE_PATH in line and not re.match(r"\s*ghost use", line)]
    strange += [f"{file.name}: {line}" for line in by_path]
    found = [Placed(each, where, each.public and (reached or each.name in again)) for each in read.found]
    for each in (each for each in read.found if each.kind == "mod"):
        passed_on = handed.get(each.name, set()) if reached else set()
        below = file.parent / f"{each.name}.rt"
        inside = of_module(below, f"{where}::{each.name}", reached and each.public, passed_on)
        found, strange = found + inside[0], strange + inside[1]
    return found, strange


def seen_types(placed):
    """The names of the types and traits that another crate can name, or that what it can name speaks of."""
    types = {each.item.name for each in placed if each.item.kind in TYPES and each.item.public}
    seen, more = set(), {each.item.name for each in placed if each.item.kind in TYPES and each.nameable}
    while more:
        seen |= more
        texts = [each.item.text for each in placed if each.nameable or (each.item.kind in TYPES and each.item.name in seen)]
        blocks = [each.item for each in placed if each.item.kind == "impl" and each.item.name in seen]
        texts += [block.text for block in blocks]
        texts += [method.text for block in blocks for method in block.members if method.public or block.trait]
        said = {word for text in texts for word in re.findall(r"\w+", text)}
        more = (types & said) - seen
    return seen


def of_function(item, where, reachable, trait="", silent=False):
    """The contract of a function, and that of the closures in it, which is private."""
    name = f"{where}::{item.name}"
    found = [Contract(name, item.clauses, item.names, reachable, reachable, trait, silent)]
    return found + ([Contract(name, item.of_closures, item.names, False, False)] if item.of_closures else [])


def of_block(placed, types, seen, traits, sealed):
    """The contracts of the methods and the ghost members of a trait or an impl block."""
    item, found = placed.item, []
    own = types & set(re.findall(r"\w+", item.text))
    reached = item.name in seen if item.kind == "trait" or not item.trait else own <= seen
    where = f"{placed.where.partition('::')[0]}::{item.name}"
    told = any(each.kind == "ghost" for each in item.members)
    for each in item.members:
        reachable = reached and (each.public or item.kind == "trait" or bool(item.trait))
        if each.kind == "fn":
            silent = bool(item.trait) and (told or (item.trait, each.name) in traits)
            found += of_function(each, where, reachable, item.trait, silent)
        elif each.kind == "ghost":
            asks = each.name.startswith(ASKING) or (each.name == INVARIANT and item.name not in sealed)
            found.append(Contract(f"{where}.{each.name}", each.clauses, each.names, reachable, reachable, asks=asks))
    return found


def all_of(placed):
    """The contracts of the items of a crate."""
    types = {each.item.name for each in placed if each.item.kind in TYPES}
    seen, found = seen_types(placed), []
    sealed = {each.item.name for each in placed if each.item.sealed}
    traits = {
        (each.item.name, method.name)
        for each in placed
        for method in each.item.members
        if each.item.kind == "trait" and method.says("ensures")
    }
    for each in placed:
        item = each.item
        if item.kind == "fn":
            found += of_function(item, each.where, each.nameable)
        elif item.kind in ("impl", "trait"):
            found += of_block(each, types, seen, traits, sealed)
        for fact in item.members if item.kind == "struct" else []:
            name, reachable = f"{each.where.partition('::')[0]}::{item.name}.{fact.name}", item.name in seen
            found.append(Contract(name, fact.clauses, fact.names, reachable, reachable, asks=not item.sealed))
    return found


def of_crate(root, crate):
    """The contracts of a crate, and what is not understood. In the main file of a program that is no trial all count."""
    source = root / "crates" / crate / "src"
    if (source / "lib.rt").exists():
        placed, strange = of_module(source / "lib.rt", crate, True, set())
        return all_of(placed), strange
    placed, strange = of_module(source / "main.rt", crate, False, set())
    in_main = all_of([each for each in placed if each.where == crate])
    for each in in_main:
        each.counts = not crate.startswith(TRIALS) and bool(each.clauses)
    return in_main + all_of([each for each in placed if each.where != crate]), strange


def all_contracts(root):
    """The contracts of all functions and types, and the lines that are not understood."""
    of_crates = [(crate, *of_crate(root, crate)) for crate in crates(root)]
    strange = [f"{crate}/{each}" for crate, _, here in of_crates for each in here]
    return [each for _, found, _ in of_crates for each in found], strange


def asked_too_much(contract):
    """The clauses of a contract in reach that ask more of a caller than that a column is reached."""
    asked = [text for kind, text in contract.clauses if kind == "requires"]
    more = [text for text in asked if not REACHED.fullmatch(text) and not CALLABLE.fullmatch(text)]
    facts = [text for kind, text in contract.clauses if kind == "ghost" and contract.asks]
    return more + [text for text in facts if not SEEN.fullmatch(text)]


def complaints(contracts, strange):
    """What is wrong, a line each: what can be reached and says nothing or asks more than `Reached`; what is not read."""
    said = [f"{each}: not understood, so what it reaches is not seen" for each in strange]
    for each in (each for each in contracts if each.reachable):
        kinds = [kind for kind, _ in each.clauses]
        if each.is_function and "ensures" not in kinds and not each.silent:
            said.append(f"{each.function} can be reached, and says nothing of what it gives")
        for _ in asked_too_much(each):
            said.append(f"{each.function} can be reached, and asks more of its caller than a column that is reached")
    return said
