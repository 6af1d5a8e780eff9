"""The reader's book, docs/STATEMENTS.md: its points, each with what says it, and the list of what must be believed."""

import re
import textwrap
from dataclasses import dataclass

from .closure import REQUESTS, SECTIONS, place_of, words
from .definitions import WHOLE_PATH
from .items import blanked, closing

BOOK = "docs/STATEMENTS.md"
PROMISES = "docs/PROMISES.md"
PROMISED = re.compile(r"(?m)^\| `([\w:]+)\(")  # how a function's row begins there
BEGIN, END = "<!-- believed -->\n", "<!-- end of believed -->\n"
HEAD = "| point | said by |"
OURS = "Here: "  # how a point begins that is not the paper's
# Paper 01's sections in its order, after what stands before the first; its note and its forms at the end. Then the requests.
ORDER = ("The work", *SECTIONS[:7], SECTIONS[8], SECTIONS[7], *REQUESTS.values())
GROUP = re.compile(r"((?:`[^`]+`(?:, | and ))*`[^`]+`) \(`([^`]+)`\)")
KEYWORDS = r"(?:(?:unfoldable|abbrev|pub|data|record|module) +)*"
MOST_LINES = 800  # what a reviewer can hold against the paper in an afternoon; whoever raises it says why in DECISIONS


@dataclass
class Point:
    """A point of the paper in our words, and the cell that names what says it."""

    section: str
    text: str
    said: str

    def groups(self):
        """The names and the file of each group of the cell."""
        return [(re.findall(r"`([^`]+)`", names), file) for names, file in GROUP.findall(self.said)]


def points(text):
    """The points of the book, in order."""
    found, section = [], ""
    for line in text.splitlines():
        if line.startswith("## "):
            section = line[3:]
        elif line.startswith("| ") and line != HEAD and section in ORDER:
            cells = [cell.strip() for cell in re.split(r"(?<!\\)\|", line)[1:-1]]
            found.append(Point(section, *(cells + ["", ""])[:2]))
    return found


def defines(text, name, suffix):
    """Whether a file has something of this name: of a definition or a proof, or of code."""
    quoted = re.escape(name)
    if suffix == ".antt":
        return bool(re.search(rf"(?m)^ *{KEYWORDS}{quoted}(?: [^=\n]*)?(?: : | :$|where$)", text))
    if "::" in name:  # a method, a constant or a case of a type
        of, _, inner = name.rpartition("::")
        return any(defines(block, inner, suffix) for block in blocks_of(text, of))
    declared = rf"\b(?:fn|struct|enum|trait|const|type|mod|ghost) +{quoted}\b"
    return bool(re.search(rf"{declared}|(?m:^ *(?:pub )?{quoted} *(?:[,({{:]|= \d))", text))


def blocks_of(text, of):
    """What stands in the blocks of a type: what it declares, and its methods."""
    text = blanked(text)
    heads = rf"(?m)^(?:pub )?(?:(?:struct|enum|trait) +{of}\b|impl\b[^{{;]*\b{of}\b(?!::))[^{{;]*(?=\{{)"
    return [text[head.end() : closing(text, head.end(), "{}")] for head in re.finditer(heads, text)]


def wrong_cell(root, point):
    """What is wrong with a cell, a line each."""
    if point.said.startswith("none: "):
        return [] if point.said.removeprefix("none: ").strip() else ["no reason"]
    said, groups = [], point.groups()
    for names, place in groups:
        file = root / "crates" / place
        if not file.is_file():
            said.append(f"no file {place}")
            continue
        text = file.read_text(encoding="utf-8")
        said += [f"no `{name}` in {place}" for name in names if not defines(text, name, file.suffix)]
    tried = re.findall(r"`((?:tests|plain|bench|examples)/[^`]+)`", point.said)
    said += [f"no file {place}" for place in tried if not (root / place).exists()]
    if not groups and not (point.said.startswith("tried: ") and tried):
        said.append("nothing says it, and it is not marked 'none: ' or 'tried: '")
    return said


def complaints(root, text, definitions, by):
    """What is wrong with the points of the book, a line each."""
    found = points(text)
    said = [f"{BOOK}, {each.section}, '{each.text}': {wrong}" for each in found for wrong in wrong_cell(root, each)]
    titles = [line[3:] for line in text.splitlines() if line.startswith("## ")]
    if tuple(titles[: len(ORDER)]) != ORDER:
        said.append(f"{BOOK}: its sections are not the papers', in this order: {'; '.join(ORDER)}")
    said += [f"{BOOK}: no point under {title}" for title in ORDER if not any(each.section == title for each in found)]
    named = {(file, name) for each in found for names, file in each.groups() for name in names}
    for each in definitions:
        if (each.module, each.name) in by and place_of(each) and (each.path, each.name) not in named:
            said.append(f"{BOOK}: no point names `{each.name}` ({each.path}), whose place is {place_of(each)}")
    return said + [f"{BOOK}: no row of a table: {line}" for line in strange_lines(text)]


def wrong_promises(text, contracts):
    """The functions in reach that have no row among the promises, and the rows of no such function; a method can stand there
    without its crate. What a trait's method gives is said by the trait."""
    said = []
    rows, functions = set(PROMISED.findall(text)), {each.function for each in contracts if each.reachable and each.is_function}
    by_row = {row: each for each in functions for row in (each, each.partition("::")[2])}
    for each in sorted(functions - {by_row.get(row) for row in rows} - {each.function for each in contracts if each.trait}):
        said.append(f"{PROMISES}: no row of {each}")
    return said + [f"{PROMISES}: {row} is no function in reach" for row in sorted(rows) if row not in by_row]


def strange_lines(text):
    """The lines of the sections of points that are neither blank nor a table's; a row has two cells that are not empty."""
    found, section = [], ""
    for line in text.splitlines():
        section = line[3:] if line.startswith("## ") else section
        is_row = re.fullmatch(r"\| [^|]*[^| ][^|]* \| [^|]*[^| ][^|]* \|", line)
        if section in ORDER and line and not line.startswith("## ") and line not in (HEAD, "|---|---|") and not is_row:
            found.append(line)
    return found


def of_the_kit(definitions, contracts, by):
    """The names of the kit that believed definitions and contracts use, by module."""
    used, own = {}, {each.crate for each in definitions} | {each.function.partition("::")[0] for each in contracts}
    texts = [(each.names, "\n".join(each.lines)) for each in definitions if (each.module, each.name) in by]
    for names, text in texts + [(each.names, each.text) for each in contracts]:
        for word in words(text):
            module, single = names.single.get(word.partition(".")[0], ("", ""))
            if module and module.partition("/")[0] not in own:
                used.setdefault(module.removeprefix(WHOLE_PATH).replace("/", "."), set()).add(single)
    return used


def believed(definitions, contracts, by):
    """The list of what must be believed: how much, a row a file, and what is the kit's."""
    rows, count, lines, files = [], 0, 0, {}
    for each in definitions:
        if (each.module, each.name) in by:
            files.setdefault(each.path, []).append(each)
    for path, found in files.items():
        here = sum(each.count for each in found)
        rows.append(f"| `{path}` | {here} | {' '.join(f'`{each.name}`' for each in found)} |\n")
        count, lines = count + len(found), lines + here
    kit = of_the_kit(definitions, contracts, by)
    kit = "; ".join(f"{module}: {' '.join(sorted(kit[module]))}" for module in sorted(kit))
    said = sum(each.lines for each in contracts)
    head = f"{count} definitions in {len(files)} files, {lines} lines, which {reaching(contracts)} reach ({said} lines of "
    head += "`requires`, `ensures` and `ghost`):"
    table = "| file | lines | definitions |\n|---|---|---|\n" + "".join(rows)
    return f"{wrapped(head)}\n\n{table}\n{wrapped(f'Of the kit they use {kit}.')}\n"


def reaching(contracts):
    """How many contracts there are, and how many facts that types keep of their values."""
    functions = sum(each.is_function for each in contracts)
    facts = len(contracts) - functions
    return f"the contracts of {functions} functions" + (f" and {facts} ghost facts of types" if facts else "")


def wrapped(text):
    """A text in lines of at most 120 characters."""
    return textwrap.fill(text, 120, break_long_words=False, break_on_hyphens=False)


def lines_of(definitions, by):
    """How many lines must be believed."""
    return sum(each.count for each in definitions if (each.module, each.name) in by)


def summary(definitions, contracts, by, text):
    """One line for the gate."""
    lines, found = lines_of(definitions, by), points(text)
    none = sum(each.said.startswith("none: ") for each in found)
    tried = sum(each.said.startswith("tried: ") for each in found)
    ours = sum(each.text.startswith(OURS) for each in found)
    by_these = f"{len(found) - ours - none - tried} said by definitions, theorems or code, {tried} tried, {none} by none"
    return (
        f"what must be believed: {lines} lines, {len(by)} definitions reached by {reaching(contracts)}; "
        f"{len(found) - ours} points of the papers, {by_these}; {ours} of our own"
    )
