"""Looks over the documents: every name of a definition, function, file or command in them exists, no sentence stands in
two of them, and README is no longer than it may be.

    document_names.py         fails with a line for each name that is not there, and for each sentence that is there twice

A name in backticks must be declared somewhere in the repository: a comment, or a word in a text, does not count. In the
records of what was changed only commands, links and sentences are looked at.
"""

import sys

sys.dont_write_bytecode = True  # leave no .pyc behind

import os
import re
from pathlib import Path

TESTS = Path(__file__).resolve().parent
sys.path.insert(0, str(TESTS))

from believed.book import blocks_of, defines
from believed.definitions import Names, crates
from believed.items import Items, blanked

# What stands for any name in a path or a command.
STANDING_FOR = re.compile(
    r"(?<![A-Za-z])(?:NAME|TOPIC|MODULE|FUNCTION|DEFINITION|WHAT|LABEL|COUNT|SECONDS|SEED|SHEET|NUMBER)(?![A-Za-z])|\*"
)
# Commands of the kit, those of them that take a crate, and what one can say of all crates.
OF_A_CRATE = "check ci expand lib must-fail plant run test tidy try verdict".split()
COMMANDS = [*OF_A_CRATE, *"all doc fmt help lemma names new seed selftest version".split()]
OF_ALL = "check tidy test verdict".split()
# Words of the kit, of Rust, of the shell and of C that documents use; and signs of the reckonings, as N and K.
OF_OTHERS = set(
    "antt auto bash cond file ensures fn ghost grep incremental let memcpy memset mod mut new old position printf python3 pub "
    "requires rt run self tactic trusted u64 unfolding use Vec where write io specs Counts TMPDIR N K O C CR double class record "
    "abbrev unfoldable Option Some None Result Ok Err".split()
)
# How a name is declared: in definitions and proofs, in Rattle and Rust, in C, in Python and in scripts; and a sheet's keys.
DECLARED = {
    ".antt": r"(?m)^ *(?:(?:unfoldable|abbrev|pub|data|record|module) +)*([^\s(){}:]+)(?= [^=\n]*(?: : |where$)| : | :$)",
    ".rt": r"\b(?:fn|struct|enum|trait|const|type|mod|ghost|let|let mut) +(\w+)|(?m:^ *(?:pub )?(\w+) *(?:[,({:]|= \d))|"
    r"(\w+): [&\w\[]",
    ".rs": r"\b(?:fn|struct|enum|const|type|mod|macro_rules!) +(\w+)|(?m:^ *(?:pub )?(\w+) *[,({:])",
    ".h": r"\b(\w+)\b",
    ".c": r"\b(\w+)\(",
    ".py": r"(?m)^ *(?:def|class) +(\w+)|^(\w+) =",
    "": r"(?m)^(\w+)\(\) \{",
    ".txt": r"\b([a-z]+)=",
}
PATH = re.compile(r"[\w.-]*/[\w./-]*$|[\w-]+\.(?:md|txt|antt|rt|rs|py|h|c|edit)$")
OPERATOR = r"◌[^\s◌]+◌"
NAME = re.compile(rf"{OPERATOR}|[^\W\d][\w·²-]*(?:'|ℤ)?")
MADE = re.compile(r"(?:crates/(\w+)/)?out(?:/(?:(\w+)|lib(\w+)\.a))?")  # where a program or a static library is built
CODE = re.compile(r"`([^`]+)`")
FILE_OF_A_CRATE = re.compile(r"\w+/(?:specs|proofs|src)/.*\.(?:antt|rt)")
RECORDS = ("docs/PORT.md", "docs/DESIGN-PASS.md")  # what was changed at a time, by the names of then: they need not be there
LONG = 60  # from this many characters on a sentence is looked for in other documents
README_LINES = 130  # the most that README may have


def documents(root):
    """The documents of the repository."""
    return [root / "README.md", root / "CONTRIBUTING.md", *sorted((root / "docs").rglob("*.md"))]


def everything(root):
    """All files and folders of the repository, without what is built from them: target/, and out/ of each crate."""
    found = []
    for place, folders, files in os.walk(root):
        folders[:] = sorted(set(folders) - {".git", "target", "out"})
        found += [Path(place, name) for name in (*folders, *sorted(files))]
    return found


def sources(root):
    """The files in which names are declared; what is made up for trials of the scripts themselves is left out."""
    folders = ("crates", "plain", "bench", "bindings", "tests", "examples")
    found = [file for folder in folders for file in everything(root / folder) if file.is_file()]
    return [file for file in found if file.suffix in DECLARED and not file.name.startswith("test_")]


def of_the_kit(root):
    """The libraries of the kit that the crates are built on."""
    lines = (root / "crates.txt").read_text(encoding="utf-8").splitlines()
    named = {word for line in lines if not line.startswith("#") for word in line.partition(":")[2].split()}
    return named - set(crates(root))


def known_names(root):
    """Every name that is declared in the repository, the names of its files and folders, and some words of others."""
    names = set(crates(root)) | of_the_kit(root) | OF_OTHERS
    for file in sources(root):
        text = re.sub(r"(?m)^ *(?:--|//|#)[^\n]*", "", file.read_text(encoding="utf-8", errors="replace"))
        for found in re.findall(DECLARED[file.suffix], text):
            names.update([found] if isinstance(found, str) else found)
        names.update(file.relative_to(root).with_suffix("").parts)
    return names.union(*(questions_of(file) for file in root.glob("crates/trial*/stdin")))


def questions_of(file):
    """The first words of a trial's questions."""
    return {word.decode() for word in re.findall(rb"(?m)^([a-z]+) ", file.read_bytes())}


def is_there(root, path):
    """Whether a path is one of the repository, from its root, from crates/ or from a crate, or a file's name alone."""
    if STANDING_FOR.search(path) or re.fullmatch(r"target(?:/[\w.-]+)?", path):
        return True
    if "out" in path.split("/"):
        made = MADE.fullmatch(path)
        named = {name for name in made.groups() if name} if made else set()
        return bool(made) and len(named) < 2 and named <= set(crates(root))
    if (root / path).exists() or (root / "crates" / path).exists():
        return True
    return any(root.glob(f"crates/*/{path}")) or ("/" not in path and any(each.name == path for each in everything(root)))


def wrong_commands(root, code):
    """Commands of the kit that there are not, and crates that they are given."""
    said = []
    for command, given in re.findall(r"(?<![\w/-])rt ([a-z-]+)(?: (\w+))?", code):
        known = crates(root) if command in OF_A_CRATE else OF_ALL if command == "all" else [given]
        if command not in COMMANDS:
            said.append(f"rt {command}")
        elif given and not STANDING_FOR.search(given) and given not in known:
            said.append(f"rt {command} {given}")
    return said


def missing_in(root, code, names):
    """What a text in backticks names that is not there."""
    said = wrong_commands(root, code)
    for word in re.sub(r"(?<![\w/-])rt [a-z-]+(?: \w+)?", "", code).split():
        bare = word.strip("(){}[],;:")
        if STANDING_FOR.search(bare) or bare.startswith("--"):
            continue
        if PATH.search(bare) and not bare.startswith(("/", "-")):
            said += [] if is_there(root, bare.rstrip("/")) else [bare]
        elif re.fullmatch(r"\w+(::\w+)+(\(.*)?", bare):
            said += [] if is_item(root, bare.partition("(")[0]) else [bare]
        else:
            said += [name for name in NAME.findall(bare) if name.rstrip("-") not in names]
    return said


def is_item(root, path):
    """Whether a path such as `member::limits::is_between`, `check::check` or `Column::open` is of its module or type."""
    first, *modules, name = path.split("::")
    source = root / "crates" / first / "src"
    if (modules or [first])[-1][0].isupper():
        return is_of_type(root, first if source.exists() else "*", (modules or [first])[-1], name)
    files = [source.joinpath(*modules).with_suffix(".rt")] if modules else [source / "lib.rt", source / "main.rt"]
    if not source.exists():
        below = "/".join([first, *modules])
        files = [*(root / "crates").glob(f"*/src/{below}.rt"), root / "bindings/bungero.rs"]
    return any(name in items_of(file) for file in files if file.exists())


def items_of(file):
    """The names of what a file in Rattle or Rust declares, without what stands inside of something else."""
    text = blanked(file.read_text(encoding="utf-8"))
    if file.suffix == ".rt":
        return {each.name for each in Items(text, Names()).found if each.kind not in ("impl", "use")}
    return set(re.findall(r"\b(?:fn|struct|enum|const|type|mod)\s+(\w+)\b", text))


def is_of_type(root, crate, of, name):
    """Whether a name is a method, a constant, a case or a field of a type of a crate, or of one of any crate or the bindings."""
    files = [*(root / "crates").glob(f"{crate}/src/**/*.rt"), *([root / "bindings/bungero.rs"] if crate == "*" else [])]
    texts = [file.read_text(encoding="utf-8") for file in files if file.exists()]
    return any(defines(block, name, ".rt") for text in texts for block in blocks_of(text, of))


def wrong_pair(root, named, place):
    """Names of a table's cell that none of the files in a cell has."""
    codes = [code for code in CODE.findall(place) if FILE_OF_A_CRATE.fullmatch(code)]
    files = [root / "crates" / code for code in codes]
    texts = [(file.read_text(encoding="utf-8"), file.suffix) for file in files if file.is_file()]
    names = [name for name in CODE.findall(named) if texts and re.fullmatch(rf"{OPERATOR}|[^\W\d][\w·²-]*", name)]
    names = [name for name in names if name not in of_the_kit(root) | OF_OTHERS]
    lacking = [name for name in names if not any(defines(text, name, suffix) for text, suffix in texts)]
    return [f"`{name}` is not in {', '.join(codes)}" for name in lacking]


def wrong_in_row(root, cells):
    """Names of a table's row that their file has not: definitions and files in one cell, or a law and where it is."""
    pairs = [(cell, cell) for cell in cells] + ([(cells[0], cells[2])] if len(cells) == 3 else [])
    return [wrong for named, place in pairs for wrong in wrong_pair(root, named, place)]


def wrong_in_line(root, document, line, names):
    """What a line of a document names that is not there; in a record none is looked for."""
    record = document.relative_to(root).as_posix() in RECORDS
    if line.startswith("    "):
        words = [] if record else re.split(r"[\s()|&<>'\"$=;,]+", line)
        paths = [word for word in words if PATH.search(word) and not word.startswith(("-", "/"))]
        missing = [path for path in paths if not is_there(root, path)] + wrong_commands(root, line)
        return [f"no {each}" for each in missing]
    said = [f"no {link}" for link in re.findall(r"\]\(([^)#]+)\)", line) if not (document.parent / link).exists()]
    if record:
        return said + [f"no `{name}`" for code in CODE.findall(line) for name in wrong_commands(root, code)]
    said += [f"no `{name}`" for code in CODE.findall(line) for name in missing_in(root, code, names)]
    said += ["a text in backticks goes over the end of the line"] if line.count("`") % 2 else []
    return said + (wrong_in_row(root, line.split("|")[1:-1]) if line.startswith("|") else [])


def wrong_names(root, document, names):
    """What a document names that is not there, a line each."""
    where = document.relative_to(root).as_posix()
    lines = document.read_text(encoding="utf-8").splitlines()
    wrong = [(number, wrong_in_line(root, document, line, names)) for number, line in enumerate(lines, start=1)]
    return [f"{where}:{number}: {each}" for number, said in wrong for each in said]


def sentences(text):
    """The sentences of a document that are long enough, and its tables' cells; code and links as they are."""
    text = re.sub(r"(?m)^    .*$", "", text)
    cells = [cell for line in text.splitlines() if line.startswith("|") for cell in line.split("|")]
    prose = " ".join(line for line in text.splitlines() if not line.startswith(("|", "#", "<!--")))
    found = re.split(r"(?<=[.:;?]) ", prose) + [part for cell in cells for part in re.split(r"(?<=[.:;?]) ", cell)]
    tidy = (re.sub(r"[\s*]+", " ", each).strip() for each in found)
    return {each for each in tidy if len(each) >= LONG}


def said_twice(root, found):
    """The sentences that stand in two documents or more, a line each."""
    seen = {}
    for document in found:
        for sentence in sentences(document.read_text(encoding="utf-8")):
            seen.setdefault(sentence, []).append(document.relative_to(root).as_posix())
    return [f"in {' and '.join(places)}: {sentence}" for sentence, places in sorted(seen.items()) if len(places) > 1]


def look(root):
    """Says what is wrong, or how much was looked at; gives the exit status."""
    names, found = known_names(root), documents(root)
    said = [wrong for document in found for wrong in wrong_names(root, document, names)] + said_twice(root, found)
    length = len((root / "README.md").read_text(encoding="utf-8").splitlines())
    said += [f"README.md has {length} lines, more than {README_LINES}"] if length > README_LINES else []
    for each in said:
        print(each)
    count = sum(len(CODE.findall(document.read_text(encoding="utf-8"))) for document in found)
    print(f"{len(found)} documents with {count} texts in backticks: {len(said)} that should not be so")
    return 1 if said else 0


if __name__ == "__main__":
    if sys.argv[1:]:
        print("usage: document_names.py", file=sys.stderr)
        sys.exit(2)
    sys.exit(look(TESTS.parent))
