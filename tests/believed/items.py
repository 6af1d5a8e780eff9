"""The items of a source file: functions with their clauses, types with their ghost fields, blocks with their methods."""

import re
from dataclasses import dataclass, field

BLANKED = re.compile(r"//[^\n]*|b?\"(?:\\.|[^\"\\])*\"|b?'(?:\\.|[^'\\])'")
SPACE = re.compile(r"\s*")
# How an item begins: whether others may use it, and its kind; words as `const` may stand before `fn`.
START = re.compile(
    r"(pub(?:\(\w+\))? )?(?:(ghost use|use|mod|struct|enum|trait|type|static|impl|ghost)\b"
    r'|(?:(?:const|unsafe|final|extern "") )*(fn)\b|(const)\b)'
)
NAME = re.compile(r"\s*(\w+)")
CLAUSE = re.compile(r"\b(requires|ensures)\*?(?:\s+\w+)?\s*$")
CLAUSE_OF_CLOSURE = re.compile(r"\b(requires|ensures)\b\*?(?:\s+\w+)?\s*(\{)?")
GHOST_MEMBER = re.compile(r"\s*(\w+)\s*[:=]\s*\{")
GHOST_FIELD = re.compile(r"(?:pub )?ghost (\w+): *(?=\{)")
# What is not looked for in the body of a function.
INSIDE = re.compile(r"\b(?:(?:fn|struct|enum|trait|mod)\s+\w+|ghost\s+use|impl\s|macro_rules)")
PAIRS = {"(": "()", "[": "[]", "{": "{}"}


@dataclass
class Item:
    """An item: its kind and name, its text without its clauses and its body, its clauses, and its methods or ghost fields."""

    kind: str
    public: bool = False
    name: str = ""  # of a block of methods: the name of the type
    text: str = ""
    clauses: list = field(default_factory=list)  # `requires`, `ensures` or `ghost`, and what it says
    of_closures: list = field(default_factory=list)  # the clauses of closures in a function's body
    members: list = field(default_factory=list)
    trait: str = ""  # the trait of an impl block, where it has one
    sealed: bool = False  # whether a struct has a field that another crate cannot write
    names: object = None  # what the names in its clauses mean

    def says(self, kind):
        """Whether it has a clause of a kind."""
        return any(each == kind for each, _ in self.clauses)


def blanked(text):
    """A source without its comments, and with nothing in its strings and characters."""
    return BLANKED.sub(lambda found: "" if found[0].startswith("//") else '""', text)


def closing(text, at, pair):
    """The index just past the bracket that closes the one at an index."""
    depth = 0
    for index in range(at, len(text)):
        depth += {pair[0]: 1, pair[1]: -1}.get(text[index], 0)
        if depth == 0:
            return index + 1
    return len(text)


def first_of(text, at, signs, pairs=None):
    """The index of the first of some signs that stands in no brackets; the end of the text where there is none."""
    pairs = pairs or PAIRS
    while at < len(text) and text[at] not in signs:
        at = closing(text, at, pairs[text[at]]) if text[at] in pairs else at + 1
    return at


def behind(text, at, signs):
    """The index behind what ends with the first of some signs, or with the block that the sign opens."""
    at = first_of(text, at, signs)
    return closing(text, at, "{}") if text[at : at + 1] == "{" else at + 1


def behind_generics(text, at):
    """The index behind blanks, and behind the parameters in `<` and `>` where some stand there."""
    at = SPACE.match(text, at).end()
    without_arrows = text.replace("->", "  ")
    return closing(without_arrows, at, "<>") if text[at : at + 1] == "<" else at


def behind_attributes(text, at):
    """The index behind blanks and attributes, and whether one of them is that of what only tests read."""
    at, tests = SPACE.match(text, at).end(), False
    while text.startswith(("#[", "#!["), at):
        end = closing(text, text.index("[", at), "[]")
        tests = tests or text[at:end] == "#[cfg(test)]"
        at = SPACE.match(text, end).end()
    return at, tests


def of_header(header):
    """The trait and the type that a block is for, by the last names of their paths."""
    trait, _, of = header.partition(" where ")[0].rpartition(" for ")
    last = lambda text: (re.findall(r"[A-Za-z_][\w:]*", re.sub(r"'\w+|\bmut\b", "", text)) or [""])[0].rpartition("::")[2]
    return last(trait), last(of)


class Items:
    """Reads the items of a file or of a block; what it does not understand is kept as the line that begins it."""

    def __init__(self, text, names, in_block=False):
        self.text, self.names, self.in_block, self.found, self.strange = text, names, in_block, [], []
        at, tests = behind_attributes(text, 0)
        while at < len(text):
            at, tests = behind_attributes(text, behind(text, at, ";{") if tests else self.take(at))

    def take(self, at):
        """Takes the item at an index, and gives the index behind it."""
        start = START.match(self.text, at)
        kind = (start[2] or start[3] or start[4]) if start else ""
        takers = {"fn": self.function, "use": self.plain, "type": self.plain, "const": self.plain, "ghost use": self.brought}
        if self.in_block:
            takers |= {"ghost": self.ghost}
        else:
            takers |= {"struct": self.struct, "enum": self.enum, "static": self.plain, "mod": self.module}
            takers |= {"impl": self.block, "trait": self.block}
        end = takers[kind](Item(kind, (start[1] or "").strip() == "pub"), at, start.end()) if kind in takers else None
        return end or self.not_understood(at)

    def not_understood(self, at):
        """Keeps the line at an index, and gives the index behind what begins there."""
        self.strange.append(self.text[at:].partition("\n")[0].strip())
        end = behind(self.text, at + 1, ";{")
        return end + (self.text[end : end + 1] == ",")

    def named(self, item, at):
        """Gives an item the name at an index, and gives the index behind it and its parameters."""
        name = NAME.match(self.text, at)
        item.name, item.names = (name[1] if name else ""), self.names
        self.found.append(item)
        return behind_generics(self.text, name.end() if name else at)

    def plain(self, item, start, at):
        """An item of which only the text is looked at."""
        self.named(item, at)
        end = first_of(self.text, at, ";")
        item.text = self.text[start:end]
        return end + 1

    def module(self, item, start, at):
        """A module, which must stand in a file of its own."""
        end = first_of(self.text, at, ";{")
        if self.text[end : end + 1] == "{":
            return None
        return self.plain(item, start, at)

    def brought(self, item, start, at):
        """Names for clauses, a line each."""
        line = self.text[start:].partition("\n")[0]
        if not self.names.take(line.strip()):
            self.strange.append(line.strip())
        return start + len(line)

    def ghost(self, item, start, at):
        """A ghost member of a trait or of an impl block: its type, its value or both."""
        member = GHOST_MEMBER.match(self.text, at)
        if not member:
            return None
        self.named(item, at)
        end = first_of(self.text, at, ";")
        item.clauses = [("ghost", self.text[member.end() - 1 : end].strip())]
        return end + 1

    def function(self, item, start, at):
        """A function. Its clauses stand between its signature and its body."""
        at = closing(self.text, self.named(item, at), "()")
        stop, ended = first_of(self.text, at, "{;"), False
        while not ended:
            clause = CLAUSE.search(self.text, at, stop)
            before = self.text[at : clause.start() if clause else stop]
            item.text = item.text or self.text[start : clause.start() if clause else stop]
            if re.search(r"\bghost\b|<\s*$", before) or (item.clauses and before.strip()):
                self.strange.append(f"`{item.name}`: {before.strip()}")
            ended = not clause or self.text[stop : stop + 1] != "{"
            if not ended:
                at = closing(self.text, stop, "{}")
                item.clauses.append((clause[1], self.text[stop:at]))
                stop = first_of(self.text, at, "{;")
        end = behind(self.text, stop, "{;")
        self.body(item, self.text[stop:end])
        return end

    def body(self, item, body):
        """The body of a function, in which only closures have clauses."""
        if inside := INSIDE.search(body):
            self.strange.append(f"in `{item.name}`: {inside[0].strip()}")
        for clause in CLAUSE_OF_CLOSURE.finditer(body):
            if not clause[2]:
                self.strange.append(f"in `{item.name}`: {clause[0].strip()}")
            at = clause.end() - 1
            item.of_closures.append((clause[1], body[at : closing(body, at, "{}")]))

    def enum(self, item, start, at):
        """An enum, which has no ghost fields."""
        at = self.named(item, at)
        end = behind(self.text, at, "{;")
        item.text = self.text[start:end]
        if re.search(r"\bghost\b", item.text):
            self.strange.append(f"`{item.name}`: ghost")
        return end

    def struct(self, item, start, at):
        """A struct, with its ghost fields. Its text is that of the fields that others can see."""
        at = self.named(item, at)
        if self.text[at : at + 1] != "(":
            at = first_of(self.text, at, "{;")
        opened = self.text[at : at + 1]
        end = closing(self.text, at, PAIRS[opened]) if opened in PAIRS else at
        fields = self.text[at + 1 : end - 1].replace("->", "  ") if opened in PAIRS else ""
        at, _ = behind_attributes(fields, 0)
        while at < len(fields):
            stop = first_of(fields, at, ",", {**PAIRS, "<": "<>"})
            self.take_field(item, fields[at:stop])
            at, _ = behind_attributes(fields, stop + 1)
        return end if opened == "{" else first_of(self.text, end, ";") + 1

    def take_field(self, item, text):
        """A field of a struct; a ghost one is a fact of each of its values."""
        if ghost := GHOST_FIELD.match(text):
            item.members.append(Item("ghost", True, ghost[1], "", [("ghost", text[ghost.end() :])], names=self.names))
        elif re.search(r"\bghost\b", text):
            self.strange.append(text.partition("\n")[0])
        elif text.startswith("pub "):
            item.text += f"{text}\n"
        else:
            item.sealed = True

    def block(self, item, start, at):
        """A trait, or an impl block, with its methods and its ghost members; it may bring in names of its own."""
        at = self.named(item, at) if item.kind == "trait" else behind_generics(self.text, at)
        opened = first_of(self.text, at, "{;")
        end = behind(self.text, opened, "{;")
        item.text = self.text[start:opened]
        if item.kind == "impl":
            item.trait, item.name = of_header(self.text[at:opened])
            self.found.append(item)
        inside = Items(self.text[opened + 1 : end - 1], self.names.within(), in_block=True)
        item.members, item.names = inside.found, inside.names
        self.strange += inside.strange + ([] if item.name else [item.text])
        return end
