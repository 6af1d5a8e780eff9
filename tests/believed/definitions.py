"""The definitions of a repository: the files of crates/NAME/specs, each cut into its definitions."""

import re
from collections import ChainMap
from dataclasses import dataclass, field
from pathlib import Path

# The folders below specs/; at the top, "", stand the definitions that promises reach.
SHELVES = ("", "theorems", "tables", "inner")

# The forms of `use` that are understood: names of a module in braces, or a module by another name.
USE = re.compile(r"(?:ghost )?use ([^\s{}*]+)(?:\.\{([^{}.]*)\}| as (\w[\w-]*));?")
DATA = re.compile(r"(?:pub )?(data|record) (\S+)")
SIGNATURE = re.compile(r"(?:(?:unfoldable|abbrev) )?(?:pub )?(\S+) : ")
CONSTRUCTOR = re.compile(r"  (\S+) : ")
WHOLE_PATH = "Rattle."
OF_A_CRATE = re.compile(r"Rattle\.(\w+)\.specs\.(.+)$")
KIT = ("std", "io")  # the libraries of the kit of which definitions may use all; of others what stands in specs/
ARGUMENT = "◌"  # what stands for an argument in the name of an operator


def crates(root):
    """The crates in the order of crates.txt, lowest first."""
    lines = (root / "crates.txt").read_text(encoding="utf-8").splitlines()
    return [line.split(":")[0].split()[0] for line in lines if line and not line.startswith("#")]


def module(path):
    """A module's path as `column/inner/Sound`, or `std/Prelude`; one that is not below some specs/ stays as it is."""
    found = OF_A_CRATE.match(path)
    return f"{found[1]}/{found[2].replace('.', '/')}" if found else path


def parts(name):
    """How a name is written where it is used: itself, or the parts of an operator, which stand between its arguments."""
    return [part for part in name.split(ARGUMENT) if part]


def is_read(path):
    """Whether a path is of the kit or of some specs/: what stands in a crate's proofs/ is not seen."""
    return not path.startswith(WHOLE_PATH) or path.split(".")[1] in KIT or bool(OF_A_CRATE.match(path))


class Names:
    """The names that the `use` lines of a file or of a block in it bring in: single ones, and modules by another name."""

    def __init__(self):
        self.single, self.modules = ChainMap(), ChainMap()

    def within(self):
        """The names of a block inside: these, and what it brings in itself."""
        names = Names()
        names.single, names.modules = self.single.new_child(), self.modules.new_child()
        return names

    def take(self, line):
        """Takes a `use` line; whether it is one that is understood."""
        found = USE.fullmatch(line)
        path, names, other = found.groups() if found else ("", "*", None)
        if "*" in [word.strip() for word in (names or "").split(",")] or not is_read(path):
            return False
        for word in names.split(",") if names else []:
            name, _, local = word.strip().partition(" as ")
            for part in parts((local or name).strip()):
                self.single[part] = (module(path), name.strip())
        if other:
            self.modules[other] = module(path)
        return True


@dataclass
class Definition:
    """A definition: its name, where it stands, its comment, its lines of code, and the constructors of a data type."""

    name: str
    crate: str
    module: str
    file: Path
    names: Names
    comment: list
    lines: list = field(default_factory=list)
    constructors: list = field(default_factory=list)

    @property
    def shelf(self):
        """The folder below specs/ in which it stands, "" for the top."""
        return "/".join(self.module.split("/")[1:-1])

    @property
    def path(self):
        """Its file, below crates/."""
        return self.file.as_posix().rpartition("crates/")[2]

    @property
    def count(self):
        """Its lines without those that are only a comment."""
        return sum(1 for line in self.lines if not line.lstrip().startswith("--"))


def begun(line):
    """The name and the kind of the definition that a line begins; none where it begins none."""
    if line.startswith((" ", "--", "infix", "pub mod", "mod ", "use ")):
        return None
    found = DATA.match(line)
    if found:
        return found[2], found[1]
    found = SIGNATURE.match(line)
    return (found[1], "function") if found else None


def is_clause(line, name):
    """Whether a line goes on with a definition: it is indented, or a clause of its function, also of an operator."""
    return line.startswith(" ") or not set(parts(name)).isdisjoint(line.split())


class Reader:
    """Reads a file of definitions line by line; what it does not understand is kept with its line's number."""

    def __init__(self, crate, inside, file):
        self.crate, self.module, self.file = crate, f"{crate}/{inside}", file
        self.names, self.found, self.waiting, self.open, self.strange = Names(), [], [], False, []

    def begin(self, name, line):
        """Begins a definition; its comment is what stands right above it."""
        comment = [each for each in self.waiting if each.startswith("--")]
        above = [each for each in self.waiting if not each.startswith("--")]
        self.found.append(Definition(name, self.crate, self.module, self.file, self.names, comment, [*above, line]))
        self.waiting, self.open = [], True

    def go_on(self, line):
        """Goes on with the definition that is open."""
        last = self.found[-1]
        last.lines.append(line)
        constructor = CONSTRUCTOR.match(line)
        if constructor and "data " in next(each for each in last.lines if not each.startswith("infix")):
            last.constructors.append(constructor[1])

    def take(self, number, line):
        """Takes a line. A name by its whole path, without a `use` line, is not understood."""
        start = begun(line)
        if WHOLE_PATH in line and not line.startswith(("use ", "--")):
            self.strange.append((number, line))
        elif start:
            self.begin(start[0], line)
        elif self.open and line.strip() and is_clause(line, self.found[-1].name):
            self.go_on(line)
        elif line.startswith(("--", "infix")):
            self.waiting, self.open = [*self.waiting, line], False
        elif not line.strip() or self.names.take(line) or re.fullmatch(r"(?:pub )?mod \w+", line):
            self.waiting, self.open = [], False
        else:
            self.strange.append((number, line))


def read_file(root, crate, file):
    """A file, read to its end."""
    inside = file.relative_to(root / "crates" / crate / "specs").with_suffix("").as_posix()
    reader = Reader(crate, inside, file)
    for number, line in enumerate(file.read_text(encoding="utf-8").splitlines(), start=1):
        reader.take(number, line)
    return reader


def read_all(root):
    """All files of definitions, crate after crate, the top of specs/ before its folders."""
    folders = [(crate, root / "crates" / crate / "specs") for crate in crates(root)]
    in_order = lambda file: (len(file.parts), file)
    return [read_file(root, crate, file) for crate, specs in folders for file in sorted(specs.rglob("*.antt"), key=in_order)]


def all_definitions(readers):
    """The definitions of all files."""
    return [each for reader in readers for each in reader.found]


def complaints(readers):
    """The lines that are not understood, so that nothing is left out unseen."""
    return [
        f"{reader.crate}/{reader.file.name}:{number}: not understood, so what it reaches is not seen: {line}"
        for reader in readers
        for number, line in reader.strange
    ]
