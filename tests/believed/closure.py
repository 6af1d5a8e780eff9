"""Which definitions the contracts reach, and what is wrong with where they stand and what their comments say."""

import re

from .definitions import SHELVES, parts

# The sections of paper 01, as places name them.
SECTIONS = (
    "Member, line, floor",
    "Reduced load and figure",
    "Effects and the 25 combinations",
    "The sheet",
    "Numbers by the place of checking",
    "Figures to check against",
    "Wrong turns",
    "Where each language form belongs",
    "Buyer's note",
)
PLACE = re.compile(r"-- 01, (%s)(?: and (?:%s))*: \S" % (("|".join(map(re.escape, SECTIONS)),) * 2))
# The requests of paper 02 that have landed, by how places name them, with their titles there.
REQUESTS = {"CR 1": "CR 1. A whole floor pasted in", "CR 2": "CR 2. Saving a column"}
REQUEST = re.compile(r"-- 02, (%s): \S" % "|".join(map(re.escape, REQUESTS)))
UNPLACED = "-- No part of the paper: "


def words(text):
    """The words of a definition or a contract; comments and texts in quotes have none."""
    text = re.sub(r"--[^\n]*", "", text)
    text = re.sub(r'"[^"\n]*"', "", text)
    return [word for word in re.split(r"[\s(){}\[\];,⌜⌝⟦⟧∥∣]+", text) if word]


class Index:
    """All definitions by their module and name; a constructor stands for its data type."""

    def __init__(self, definitions):
        self.named, self.written = {}, {}  # by their names, and as they are written where they are used
        for each in definitions:
            for name in [each.name, *each.constructors]:
                self.named[each.module, name] = each
                self.written.update({(each.module, part): each for part in parts(name)})

    def meant(self, word, names, module=None):
        """The definition that a word means in a file: what stands before its fields, or a name of a module; else none."""
        name, *fields = word.split(".")  # no name before the field of a term in brackets, no field after what λ binds
        if (module, name) in self.written:
            return self.written[module, name]
        if name in names.single:
            return self.named.get(names.single[name])
        return self.named.get((names.modules.get(name), fields[0])) if fields else None


def reached(definitions, contracts):
    """The definitions that contracts reach, as a dict: by module and name, who reaches them first."""
    index, by, waiting = Index(definitions), {}, []

    def reach(found, who):
        if found and (found.module, found.name) not in by:
            by[found.module, found.name] = who
            waiting.append(found)

    for contract in contracts:
        for word in words(contract.text):
            reach(index.meant(word, contract.names), contract.function)
    while waiting:
        each = waiting.pop()
        for word in words("\n".join(each.lines)):
            reach(index.meant(word, each.names, each.module), f"`{each.name}` of {each.crate}")
    return by


def place_of(definition):
    """The section or request that a definition's comment begins with, "" where it is marked as no part of the papers, else
    none."""
    first = definition.comment[0] if definition.comment else ""
    if first.startswith(UNPLACED):
        return ""
    found = PLACE.match(first) or REQUEST.match(first)
    return found[1] if found else None


def complaints(definitions, by, by_private):
    """What is wrong, a line each: a definition on the wrong shelf, or one that is believed without a place in the paper."""
    said = []
    for each in definitions:
        where = f"{each.path}: `{each.name}`"
        who, private = by.get((each.module, each.name)), by_private.get((each.module, each.name))
        if each.shelf not in SHELVES:
            said.append(f"{where} stands in specs/{each.shelf}, which is no shelf")
        elif who and each.shelf:
            said.append(f"{where} is reached by {who}, but stands in specs/{each.shelf}")
        elif private and each.shelf in ("theorems", "tables"):
            said.append(f"{where} is asked by private functions, by {private}, but stands in specs/{each.shelf}")
        elif not who and not each.shelf:
            said.append(f"{where} is reached by no contract, but stands at the top of specs/")
        if who and place_of(each) is None:
            lacking = f"its comment begins with no place in the paper and no '{UNPLACED}'"
            said.append(f"{where} is reached by {who}, and {lacking}")
    return said
