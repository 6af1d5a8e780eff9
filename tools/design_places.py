#!/usr/bin/env python3
"""Lists the places of each point of docs/DESIGN-PASS.md in the tree in which it stands, with their count.

    design_places.py POINT [COMMIT]     POINT is 1 to 8: a line `file:line: item: what it is` for each, and their count
    design_places.py all [COMMIT]       the counts of all points alone; both of that commit's tree where one is named

It goes by patterns over the text of crates/*/src, so some hits are no places: those of NO_PLACE, which says why. A hit
that comes later, is looked at and is no place of its point is added there.
"""

import sys

sys.dont_write_bytecode = True  # leave no .pyc behind

import re
import subprocess
import tempfile
from collections import Counter, defaultdict
from difflib import SequenceMatcher
from itertools import combinations
from pathlib import Path

ROOT = Path(__file__).resolve().parent.parent
ITEM = re.compile(r"^( *)((?:pub )?(?:extern \"C\" )?(fn|struct|enum|const|type|trait|impl)\b[^\n]*)", re.M)
WORD = re.compile(
    r"[A-Za-z_]\w*|\d[\w.]*|b?'(?:\\.|[^'])'|b?\"(?:\\.|[^\"\\])*\"|->|=>|::|&&|\|\||[<>=!+\-*/%]=|\S"
)
KEYWORDS = set(
    "fn let mut if else while for in match return pub struct enum as true false const loop break self Self".split()
)
NUMBER = r"(?:u8|u16|u32|u64|usize|i64)"


class Item:
    """A function, a struct, an enum or another item of a file, with its comment and its text in parts."""

    def __init__(self, file, text, found, end):
        self.file, self.kind = file, found.group(3)
        self.line = text.count("\n", 0, found.start(2)) + 1
        self.text = text[found.start(2) : end]
        named = re.match(r"[^(<{;:=]*?(\w+)\s*(?:[(<{;:=]|for\b)", self.text.split(self.kind, 1)[1])
        self.name = named[1] if named else "?"
        self.code = uncommented(self.text)
        self.head, self.clauses, self.body = parts(self.code) if self.kind == "fn" else (self.code, "", "")
        self.comment = comment_above(text, found.start(2))

    def where(self):
        """The file and line, for a reader to go to."""
        return f"{self.file}:{self.line}"

    def path(self):
        """The crate, the module and the name, as the page says them."""
        crate, stem = self.file.split("/")[1], Path(self.file).stem
        return "::".join([crate, *([] if stem in ("lib", "main") else [stem]), self.name])

    def parameters(self):
        """The pairs of a name and a type of a function's parameters, lifetimes left out."""
        inside = re.search(r"\((.*)\)\s*(?:->|$)", self.head, re.S)
        found = re.findall(r"(\w+)\s*:\s*([^,\[\]()]*(?:\[[^\]]*\])?[^,\[\]()]*)", inside.group(1)) if inside else []
        return [(name, re.sub(r"'\w+ ", "", kind.strip())) for name, kind in found]

    def result(self):
        """The type that a function gives; the empty text where it gives none."""
        found = re.search(r"->\s*(.+?)\s*$", self.head, re.S)
        return found.group(1) if found else ""


def uncommented(text):
    """The text without its comments."""
    return re.sub(r"//[^\n]*", "", text)


def comment_above(text, start):
    """The comment above an item, past its attributes."""
    lines = text[: text.rfind("\n", 0, start) + 1].split("\n")[:-1]
    said = []
    while lines and re.match(r"\s*(?://|#\[)", lines[-1]):
        last = lines.pop().strip()
        said += [last.lstrip("/ ")] if last.startswith("//") else []
    return " ".join(reversed(said))


def parts(code):
    """What stands before a function's clauses, the clauses, and the body."""
    depth, begin, spans = 0, 0, []
    for at, sign in enumerate(code):
        if sign == "{":
            begin, depth = (at if depth == 0 else begin), depth + 1
        elif sign == "}":
            depth -= 1
            spans += [(begin, at + 1)] if depth == 0 else []
    if not spans:
        return code, "", ""
    first = re.search(r"\n\s*(?:requires|ensures|where)\b", code[: spans[-1][0]])
    head = code[: first.start()] if first else code[: spans[-1][0]]
    return head.strip(), code[len(head) : spans[-1][0]].strip(), code[spans[-1][0] : spans[-1][1]]


def ends(text, start):
    """Where an item that starts here ends: behind its body's brace, or at its semicolon."""
    depth, seen, at = 0, "", start
    masked = re.sub(r"//[^\n]*|b?\"(?:\\.|[^\"\\])*\"|b?'(?:\\.|[^'\n])'", lambda m: " " * len(m.group()), text[start:])
    for at, sign in enumerate(masked):
        depth += (sign in "{([") - (sign in "})]")
        seen = sign if sign in "{}" else seen
        rest = masked[at + 1 :].lstrip()
        if depth == 0 and sign == "}" and not rest.startswith(("requires", "ensures", "{", "modifies")):
            return start + at + 1
        if depth == 0 and sign == ";":
            return start + at + 1
    return start + at + 1


def items():
    """All items of all crates, in order."""
    found = []
    for file in sorted((ROOT / "crates").glob("*/src/**/*.rt")):
        text = file.read_text(encoding="utf-8")
        for each in ITEM.finditer(text):
            if not text[: each.start()].endswith("//"):
                found.append(Item(file.relative_to(ROOT).as_posix(), text, each, ends(text, each.start(2))))
    return found


def functions(of=None):
    """The functions that have a body."""
    return [item for item in of or items() if item.kind == "fn" and item.body]


def variants(item):
    """The names and the loads of an enum's cases."""
    inside = item.code[item.code.index("{") + 1 : item.code.rindex("}")]
    flat = re.sub(r"#\[[^\]]*\]", "", inside)
    return re.findall(r"(\w+)\s*(?:=\s*\d+\s*)?(\([^)]*\)|\{[^}]*\})?\s*(?:,|$)", flat)


def fields(item):
    """The names and types of a struct's fields."""
    inside = item.code[item.code.find("{") + 1 :]
    return re.findall(r"(?:pub |ghost )?(\w+)\s*:\s*([^,\n{}]*(?:\[[^\]]*\])?[^,\n{}]*)", inside)


def point1():
    """Own enums of the shape of Option or Result, values with a flag beside them, numbers for kinds and refusals."""
    found = []
    for item in items():
        if item.kind == "enum":
            cases = variants(item)
            none = [name for name, load in cases if re.fullmatch(r"None|Not|Nothing|Unknown|Malformed", name)]
            if none or any(load for _, load in cases):
                said = ", ".join(name + re.sub(r"\s+", " ", load) for name, load in cases)
                found.append((item, "enum of " + said))
        if item.kind == "struct" and "{" in item.code:
            typed = [(name, kind.strip()) for name, kind in fields(item)]
            flags = [f"{name}: {kind}" for name, kind in typed if kind == "bool" or name == "number"]
            flags += [] if flags or not re.search(r"\b0 where\b|zeros where", item.comment) else ["0 for none"]
            found += [(item, "struct with " + ", ".join(flags) + " and values beside")] if flags else []
    for item in functions():
        given = item.result()
        kinds = [f"{name}: {kind}" for name, kind in item.parameters() if (name, kind) in KINDS]
        numbered = any((name, kind) == ("number", "u64") for name, kind in item.parameters())
        none = r"return (?:0|0\.0|16|at|from);|=> 0,|\{ 0 \}|\n {4}(?:0|16)\n\}"
        if re.fullmatch(NUMBER + "|f64", given) and re.search(none, item.body):
            found.append((item, f"function that gives {given}, a number for none among them"))
        elif given == "bool" and any(kind.startswith("&mut") for _, kind in item.parameters()):
            found.append((item, "function that gives a bool, and the value in a buffer"))
        elif numbered and re.search(r"refus|stops|opening", item.comment + item.code):
            found.append((item, "function that takes a refusal as a number"))
        elif re.search(r"\b(?:Refused|Beyond|Err)\(_\) =>|unwrap_or\(", item.body):
            found.append((item, "function that gives a value for a refusal that cannot be"))
        elif kinds:
            found.append((item, "function that takes a number for a kind: " + ", ".join(kinds)))
        elif re.search(r"\b(?:0|zeros) (?:where|at|without)\b", item.comment) and given != "bool":
            found.append((item, "function that gives 0 or zeros for none"))
    for item in (each for each in items() if each.kind == "struct"):
        kinds = [f"{name}: {kind.strip()}" for name, kind in fields(item) if (name, kind.strip()) in KINDS]
        found += [(item, "field with a number for a kind: " + ", ".join(kinds))] if kinds else []
    return found


KINDS = {("class", "u64"), ("place", "usize"), ("code", "u8")}


def shape(text):
    """The words of a text with every name and literal of its own made alike."""
    sign = lambda word: "0" if re.match(r"\d|b?['\"]", word) else word
    return ["x" if re.match(r"[A-Za-z_](?!')", w) and w not in KEYWORDS else sign(w) for w in WORD.findall(text)]


def alike(one, other):
    """How alike two shapes are, 0 where their lengths are too far apart."""
    if min(len(one), len(other)) < 0.75 * max(len(one), len(other)):
        return 0
    return SequenceMatcher(None, one, other, autojunk=False).ratio()


def families(things, near):
    """The things that hang together by a relation, in groups of two or more, each with what ties it."""
    group = {id(thing): [thing] for thing in things}
    for one, other in combinations(things, 2):
        if group[id(one)] is not group[id(other)] and near(one, other):
            joined = group[id(one)] + group[id(other)]
            group.update({id(thing): joined for thing in joined})
    return [each for each in {id(each): each for each in group.values()}.values() if len(each) > 1]


def twin_functions(one, other):
    """Whether two functions have the same shape, or nearly: a little less near is enough in one crate."""
    (item, left), (beside, right) = one, other
    needed = 1 if min(len(left), len(right)) < 30 else 0.8 if house(item) == house(beside) else 0.87
    return min(len(left), len(right)) >= 24 and alike(left, right) >= needed


def twin_structs(one, other):
    """Whether two structs share most of the smaller's fields, number and count aside, or a flag beside one value."""
    (left, right) = ({name for name, _ in fields(item)} for item in (one, other))
    both = (left & right) - {"number", "count"}
    small = min(len(left - {"number", "count"}), len(right - {"number", "count"}))
    flagged = len(left) == len(right) == 2 and left & right & {"number", "well"}
    return len(both) >= 2 and 3 * len(both) >= 2 * small or bool(flagged)


def twin_enums(one, other):
    """Whether two enums share the name of a case."""
    return bool({name for name, _ in variants(one)} & {name for name, _ in variants(other)})


def house(item):
    """The crate of an item; the programs that try the others are one."""
    return re.sub(r"^(?:trial\w*|takedown)$", "trial", item.file.split("/")[1])


def is_call(item):
    """Whether a function does nothing but call another."""
    return bool(re.fullmatch(r"\{\s*[\w:]+\([^;{}]*\)\s*\}", item.body))


def point2():
    """Families of functions of the same or nearly the same shape, and of types with the same fields or cases."""
    codes = [(item, shape(item.head.split(item.name, 1)[1] + item.body)) for item in functions() if not is_call(item)]
    structs = [item for item in items() if item.kind == "struct" and "{" in item.code]
    enums = [item for item in items() if item.kind == "enum" and "{" in item.code]
    groups = [[item for item, _ in group] for group in families(codes, twin_functions)]
    groups += families(structs, twin_structs) + families(enums, twin_enums)
    found = [(group[0], f"{group[0].kind} like " + listing(group[1:])) for group in groups]
    named = [item for item in items() if item.kind in ("fn", "const") and item.name != "main" and not is_call(item)]
    for kind, name in dict.fromkeys((item.kind, item.name) for item in named):
        same = [item for item in named if (item.kind, item.name) == (kind, name)]
        shared = Counter(house(item) for item in same)
        same = [item for item in same if shared[house(item)] > 1]
        if same and not any({item.path() for item in same} <= {each.path() for each in group} for group in groups):
            found.append((same[0], f"{kind} with the name of " + listing(same[1:])))
    spells = lambda item: all(re.search(rf"(?i)\b{load}\b", item.text) for load in SIX)
    spelled = [item for item in items() if item.kind != "impl" and spells(item)]
    return found + ([(spelled[0], "spells the loads out, as " + listing(spelled[1:]))] if len(spelled) > 1 else [])


SIX = ("dead", "roof", "snow", "rain", "wind", "quake")


def point3():
    """Loops whose place or count a line of their own steps, and `for` over a range that indexes."""
    found = []
    for item in functions():
        for loop in re.finditer(r"\b(while|for)\b([^{]*)\{", item.body):
            inside = item.body[loop.end() : ends(item.body, loop.end() - 1)]
            steps = r"\b([a-z_]\w*) (?:\+=|-=|/=) [^;]*;|\b([a-z_]\w*) = [a-z]+ [+-] 1;|\b(end|at) = \w+;"
            stepped = re.findall(steps, inside)
            names = {name for each in stepped for name in each if name} & set(re.findall(r"\w+", loop.group(2)))
            ranged = loop.group(1) == "for" and ".." in loop.group(2)
            counts = "counts " + ", ".join(sorted(names)) if loop.group(1) == "while" and names else ""
            what = "indexes by a range" if ranged else counts
            if what or loop.group(1) == "while":
                over = " ".join(loop.group(2).split())
                found.append((item, f"{loop.group(1)} {over}: {what or 'steps another way'}"))
        if re.search(r"\+ 1\].*\+ 2\].*\+ 3\].*\+ 4\]|, 1, .*, 2, .*, 3, .*, 4, ", item.body, re.S):
            found.append((item, "a loop written out, an index a line"))
    return found


LITERAL = r"(?:[A-Z]\w*(?:::[A-Z]\w*\()? \{|\[ ).*[}\])]$"
READ_BY_HAND = r"b'0'|b'9'|b\"-\"|0x[0-9a-f_]{10,}|-\(\w+ \+ 1\)|/= 10|[*/] \d{6,}"


def point4():
    """Functions that may be a conversion, an equality, an order or a printing written by hand."""
    found = []
    for item in functions():
        body = re.sub(r"\s+", " ", item.body[1:-1]).strip()
        last = re.sub(r"^(?:let [^;]*; )*", "", body)
        given, taken = item.result(), [kind for _, kind in item.parameters()]
        named = re.escape(re.sub(r"<.*", "", given)) + r"(?:::\w+[ ({]| \{)"
        prints = [name for name, _ in item.parameters() if name in ("rt", "out")] and not item.file.endswith("main.rt")
        arms = re.fullmatch(r"match \w+ \{(.*)\}", last)
        if arms and re.fullmatch(r"(?: ?[\w:]+(?:\([^)]*\)|\{[^}]*\})? => [^,{}()]+,?)+ ?", arms.group(1)):
            found.append((item, f"conversion to {given} by a match"))
        elif given and last.startswith("match") and len(re.findall(named, last)) > 1:
            found.append((item, f"conversion to {given} by a match"))
        elif re.match(r"(?:-?\(?\w+(?: - \w+\))? as \w+\)?)(?: [+-] 1)?$", last):
            found.append((item, f"conversion to {given} by a cast"))
        elif taken and re.match(LITERAL, last) and re.search(r"\.\w|\[\d|\bas\b|%", last):
            found.append((item, f"conversion to {given} field by field"))
        elif given and taken.count(given) >= 2 and re.fullmatch(r"if \w+ <=? \w+ \{ \w+ \} else \{ \w+ \}", last):
            found.append((item, "the greater or smaller of two"))
        elif given == "bool" and len(set(taken)) < len(taken) and re.search(r"[<>]=? ?\w+|[!=]=", body):
            found.append((item, "comparison of values of one type"))
        elif re.search(READ_BY_HAND, body):
            found.append((item, "digits, signs or bits read, put or packed by hand"))
        elif prints and re.search(r"\bmatch \w|\w != \w|< 0", body):
            found.append((item, "printing of a value by cases"))
    return found


def facts(item):
    """The facts of a function's clauses, in a form without its own names where that is plain."""
    said = set()
    for clause in re.findall(r"(?:requires|ensures)[^{]*\{(.*?)\}\s*(?=requires|ensures|$)", item.clauses, re.S):
        for fact in re.split(r" × |(?<!\w)→ ", clause.strip()):
            whole = fact.strip().count("(") == fact.count(")")
            bare = re.sub(r"^\(|\)$", "", fact.strip()) if whole else fact.strip()
            bare = re.sub(r"\.(?:now|old|new)\b", "", re.sub(r"^\((.*)\)$", r"\1", bare)).lstrip("(")
            head = re.match(r"[A-Z]\w*", bare)
            said.add(head.group() + (" (column_from ..)" if "column_from" in bare else "") if head else bare)
    return {fact for fact in said if fact and not fact.startswith("result ≡")}


SAME_NAMES = {"buffer": "to", "out": "to", "end": "count"}


def point5():
    """Facts in the clauses of three or more functions, and parameters that stand together in three or more."""
    by_fact, by_name, by_group = defaultdict(list), Counter(), defaultdict(list)
    for item in functions():
        for fact in facts(item):
            by_fact[fact].append(item)
        named = {(SAME_NAMES.get(name, name), re.sub("u16|usize", "usize", kind)) for name, kind in item.parameters()}
        named = {(name, kind.replace("&mut Places", "&Places")) for name, kind in named if name != "rt"}
        named = sorted(named)
        by_name.update(named)
        for size in range(2, min(len(named), 4) + 1):
            for group in combinations(named, size):
                by_group[group].append(item)
    thrice = {fact: places for fact, places in by_fact.items() if len(places) > 2}
    found = [(at[0], f"`{fact}` in the clauses of {len(at)}: {listing(at)}") for fact, at in thrice.items()]
    thrice = {group: places for group, places in by_group.items() if len(places) > 2}
    often = {group: places for group, places in thrice.items() if together(group, len(places), by_name)}
    for group, places in sorted(often.items(), key=lambda each: (-len(each[1]), each[0])):
        larger = any(set(group) < set(other) and 2 * len(often[other]) >= len(places) for other in often)
        if not larger:
            said = ", ".join(f"{name}: {kind}" for name, kind in group)
            found.append((places[0], f"`{said}` of {len(places)}: {listing(places)}"))
    return found


def together(group, count, by_name):
    """Whether parameters go together wherever one of them stands, but for a half at the most."""
    return 2 * count >= min(by_name[each] for each in group) and 4 * count >= max(by_name[each] for each in group)


def listing(places):
    """The functions' names, with their crates and modules."""
    return ", ".join(place.path() for place in places)


BUFFER = r"\[.*\]|Places|Table"
TABLE = r"STARTS|: \[\[|= \d+ \* [a-z]|: \[\w+; \w+\] = \[$"
LENGTH = re.compile(r"count|end|at|from|start|length|lines|floors|kept|size|place|first")


def point6():
    """Buffers with a length or a place beside them, texts of keys with their starts, and flat tables."""
    found = []
    for item in items():
        if item.kind == "struct" and "{" in item.code:
            held = [name for name, kind in fields(item) if re.search(BUFFER, kind)]
            numbers = [name for name, kind in fields(item) if re.fullmatch(NUMBER, kind.strip())]
            beside = [name for name in numbers if LENGTH.fullmatch(name)]
            if beside and (held or re.search(r"\b(?:lines|places|bytes|buffer|part)\b", item.comment)):
                found.append((item, f"struct with {', '.join(beside)} beside {', '.join(held) or 'what is elsewhere'}"))
        flat = item.kind == "fn" and re.search(r"= \d+ \* [^;]*;.*\[at \+ 1\]", item.body, re.S)
        if flat:
            found.append((item, "row of numbers of a flat table"))
        elif item.kind == "fn" and item.body:
            held = [name for name, kind in item.parameters() if re.search(BUFFER, kind)]
            numbers = [name for name, kind in item.parameters() if re.fullmatch(r"u16|usize", kind)]
            beside = [name for name in numbers if LENGTH.fullmatch(name)]
            if held and beside:
                found.append((item, f"takes {', '.join(held)} with {', '.join(beside)} beside"))
            elif item.result() == "usize" and any(kind.startswith("&mut [") for _, kind in item.parameters()):
                found.append((item, "puts at the front of a buffer and gives the length"))
        if item.kind in ("const", "type") and re.search(TABLE, item.code, re.M):
            found.append((item, "table beside a text or a list, or flat"))
    return found


def point7():
    """Flags and matches that choose which step to run."""
    found = []
    for item in functions():
        flags = [name for name, kind in item.parameters() if kind == "bool"]
        arms = re.findall(r"=> (?:return )?[\w:]+\([^)]*\)|=> \{", item.body)
        if flags:
            found.append((item, "takes the flag " + ", ".join(flags)))
        elif len(arms) > 1 and len(re.findall(r"\bmatch\b", item.body)) == 1:
            found.append((item, f"runs one of {len(arms)} steps by a match"))
    tables = [item for item in items() if item.kind == "const" and re.search(r"\[\s*fn\b", item.code)]
    return found + [(item, "table of functions") for item in tables]


MADE_FOR = ("Answers.antt", "Invariants.antt")
OLD_PATHS = ("mathlib", "lib", "native", "borrow", "Prim", "mir")


def point8(listed):
    """The answer files and the lines of all proofs, a line a crate; files with `before.before`; imports of the core."""
    totals = Counter()
    for crate in sorted((ROOT / "crates").iterdir()):
        files = sorted((crate / "proofs").rglob("*.antt"))
        own = [file for file in files if file.name not in MADE_FOR or file.parent == crate / "proofs"]
        texts = {file: file.read_text(encoding="utf-8") for file in files}
        count = Counter(crates=1, files=len(files), answers=sum(f.name == "Answers.antt" for f in files))
        count["invariants"] = sum(f.name == "Invariants.antt" for f in files)
        count["answer lines"] = sum(len(texts[f].splitlines()) for f in files if f not in own)
        count["lemma files"], count["lemma lines"] = len(own), sum(len(texts[f].splitlines()) for f in own)
        count["goals answered by search"] = sum(len(re.findall(r"(?m)= *search rules *$", t)) for t in texts.values())
        nested = [file for file in files if "before.before" in texts[file]]
        count["before.before"] = len(nested)
        for path in OLD_PATHS:
            count["use " + path] = sum(len(re.findall(rf"(?m)^ *use {path}\.", t)) for t in texts.values())
        if listed:
            said = ", ".join(f"{value} {key}" for key, value in count.items() if value and key != "crates")
            print(f"{crate.name}: {said}")
            for file in nested:
                print(f"  {file.relative_to(ROOT)}: before.before")
        totals += count
    return totals


MAKES = "makes a value of several, and converts none"
RULE = "a rule of the paper or of the form, no order of a type"
ITS_CASES = "each case has values of its own"
# The hits of each point that are no places of it, by path, by all that is printed, or by what stands in backticks.
NO_PLACE = {
    "1": {
        "reduction::share::Share": "both cases are shares",
        "sheet_lines::Due": "both cases are lines that are due",
        "exports::columns::bungero_enter": "takes any number and answers it",
        "exports::reductions::bungero_reduced_load": "takes any number and answers it",
        "member::is_formula": "takes any number and answers it",
        "reduction::reduced_load": "takes any number and answers it",
        "reduction::other_load": "takes any number and answers it",
        "trial::columns::enter": "takes any number and answers it",
        "figure::any_order::one_if_unseen": "0 and 1 are counts",
        "figure::at_floor::one_if_new": "0 and 1 are counts",
        "trial::columns::left": "0 is a count",
        "reduction::heavy_twentieths": "20 and 16 are shares",
        "reduction::rounding::chord": "0 is the height there",
        "records::entering::begun": "what it gives is counted",
        "records::listed_of": "what it gives is counted",
        "sheet::steps::take_effect": "the place is an index, of an array and of a key",
        "report::takedown::put_floor": "nothing is put where there is no line",
        "text::scan::find_newline": "where the text ends its last line ends",
        "text::scan::line_end": "where the text ends its last line ends",
        "trial::end_of": "where the text ends its last line ends",
        "sheet_lines::effect_end": "the place is an index, of an array and of a key",
        "sheet_lines::effect_form": "the place is an index, of an array and of a key",
        "sheet_lines::is_floor": "the place is an index, of an array and of a key",
        "sheet_lines::later_form": "the place is an index, of an array and of a key",
        "trial_combination::answer_all": "the library's Option of a slice",
        "trial::answer_all": "the library's Option of a slice",
        "trial::questions::Question": ITS_CASES,
        "trial_combination::print::Answer": ITS_CASES,
        "sheet_lines::Form: enum of Member(u64), Floor(Line), Effect{ place: usize, newtons: i64 }": ITS_CASES,
        "exports::changes::bungero_enter": "takes any number and answers it",
        "exports::sheets::bungero_write": "what it gives is counted",
        "exports::sheets::from": "what C is given where no effect is refused",
        "error_bound::note": "the first one stays the first",
        "figure::sums::formula_area": "0 is the area",
        "reduction::rounding::raised": "the last number is one too",
        "trial::columns::new": "says that it cannot be",
        "newtons::whole_of": "names the case",
        "figure::line::HeldLine": "its number is the line",
        "sheet_lines::effect_key": "the place is an index, of an array and of a key",
    },
    "2": {
        "exports::changes::from": "a From for each answer",
        "exports::checks::from": "a From for each struct",
        "exports::columns::from": "a From for each answer",
        "exports::reports::from": "a From for each answer",
        "exports::sheets::from": "a From for each answer",
        "figure::rates::figure": "of a line, and of lines",
        "sheet::lent::SheetRef": "a sheet, and one that is lent",
        "text::text": "a trait's method, and what an output does",
        "trial::questions::number_of": "two calls of the library each, one of which takes no sign",
        "column::enter_in": "what is alike is that they call two functions",
        "reduction::other_load": "one calls the other",
        "reduction::rounding::raised": "one looks upwards, one downwards",
        "reduction::rounding::rounded": "matches on other enums",
        "sheet_writer::lines::put_line": "the effects have signs, and a line each",
        "trial_combination::print::write_whole": "what is alike is that they write two things",
        "sheet_lines::Due": "what is due, and what came",
        "column::changing::enter": "one calls the other",
        "column::changing::open": "one calls the other",
        "column::changing::paste": "one calls the other",
        "column::lent::ColumnRef": "a column, and one that is lent",
        "column::Line": "what is alike is two names",
        "column::in_place::enter": "one calls the other",
        "column::in_place::paste": "one calls the other",
        "column::open: fn with the name of column::open": "a member, and its column",
        "newtons::Effect: enum like trial_combination::print::Answer": "what is alike is one name",
        "exports::changes::unopened": "what is alike is that they have no lines",
        "figure::any_order::floors_marked": "one marks, one compares with the line before",
        "sheet::steps::open_member: fn like sheet::steps::enter_line, trial::columns::open": "lines of other kinds",
        "sheet_writer::lengths::lines_length": "sums of other things",
        "trial_combination::print::fmt": "printing of other types",
        "trial::print::fmt": "printing of other types",
        "reduction::rounding::UNIT": "units of other scales",
        "report::ROOM": "rooms for other things",
    },
    "3": {
        "figure::descent::work_out_all": "a step takes the lines of a floor, as many as there are",
        "input::read_from": "a step takes as many bytes as come",
        "sheet_writer::lengths::decimal_length": "no index; it is in point 4",
        "trial_sheet::answer_all": "a step takes as many bytes as the text says",
        "column::in_place::paste": "takes four numbers off a slice by a pattern",
        "error_bound::enter_all": "takes four numbers off a slice by a pattern",
    },
    "4": {
        "column::open": MAKES,
        "records::entering::begun": MAKES,
        "records::entering::with_line": MAKES,
        "sheet::stopped": MAKES,
        "trial::columns::state_of": MAKES,
        "trial::columns::open": MAKES,
        "trial_combination::doubles::double_from": MAKES,
        "trial_combination::doubles::effects_from": MAKES,
        "trial_combination::doubles::newtons_from": MAKES,
        "sheet_writer::write": MAKES,
        "sheet::read": MAKES,
        "error_bound::figure_after": MAKES,
        "figure::descent::next_floor": MAKES,
        "figure::rates::shares_at": MAKES,
        "trial::print::print_after": "printing, whose format has 0 for none",
        "effects::of": "a part of a value, by its name",
        "effects::place: conversion to u64 by a cast": "the discriminant",
        "refusal::number: conversion to u64 by a cast": "the discriminant",
        **dict.fromkeys(
            """exports::changes::from exports::checks::from exports::columns::from exports::combinations::from
            exports::listed::from exports::reductions::from exports::reports::from exports::sheets::from""".split(),
            "a From",
        ),
        "figure::descent::top": MAKES,
        "figure::descent::next": MAKES,
        "figure::lines::of": MAKES,
        "figure::lines::first": MAKES,
        "report::put_printed": "puts one of two texts",
        "figure::rates::searched_load": "it is in point 1",
        "newtons::whole_of": "it checks",
        "member::is_formula": RULE,
        "reduction::rounding::reached": RULE,
        "sheet_lines::read_fields": RULE,
        "sheet_lines::effect_form": RULE,
        "sheet_lines::number::may_grow": RULE,
        "sheet::steps::is_complete": RULE,
    },
    "5": {
        "IfOk": "says other things of other results",
        "line: &[u8], place: usize": "a line, and the effect that is due; each goes alone too",
        "places : List ℕ": "a clause for all places, of things that share none",
        "class: u64, load: u64": "numbers as a caller hands them over; each goes alone too",
        "class: u64, floors: u64": "numbers as a caller hands them over; each goes alone too",
    },
    "6": {
        "combination::search::FACTORS": "rows of a table",
        "figure::Working": "how many floors there are is what it says",
        "figure::rates::Shares": "how many floors there are is what it says",
        "figure::shares::Shares": "how many floors there are is what it says",
        "reduction::Carried": "how many floors there are is what it says",
        "sheet_lines::effect_form": "the place is that of an effect on the sheet",
        "sheet_lines::is_floor": "the place is that of an effect on the sheet",
        "sheet_lines::later_form": "the place is that of an effect on the sheet",
    },
    "7": {
        "figure::any_order::one_if_unseen": "counts",
        **dict.fromkeys(
            """combination::with_double combination::combine effects::check figure::rates::influence_of input::read_from
            newtons::whole_of reduction::rounding::rounded sheet::steps::take_line sheet_lines::form_of
            sheet_writer::write
            trial::answer trial::print::print_answer trial::print::print_working trial_combination::print::print_effect
            trial_combination::print::write_effect trial_combination::print::print_combined
            trial_combination::print::print_governed reduction::class::try_from trial::answer_all trial::print::fmt
            trial::questions::question_of trial_combination::answer_of trial_combination::doubles::digit
            trial_combination::print::fmt newtons::checked combination::govern
            trial_sheet::answer""".split(),
            "a match on what there is, whose cases have values of their own",
        ),
    },
}
POINTS = {"1": point1, "2": point2, "3": point3, "4": point4, "5": point5, "6": point6, "7": point7}


def show(point, listed):
    """Prints the places of a point, then the hits that are none, and how many there are of each."""
    if point == "8":
        totals = point8(listed)
        print("point 8: " + ", ".join(f"{value} {key}" for key, value in totals.items()))
        return
    places, others = [], []
    for item, what in POINTS[point]():
        said = (item.path(), f"{item.path()}: {what}", *re.findall("`([^`]+)`", what))
        why = next((why for name, why in NO_PLACE[point].items() if name in said), "")
        line = f"{item.where()}: {item.path()}: {what}"
        (others if why else places).append(line + (f" -- no place: {why}" if why else ""))
    for line in [*places, *others] if listed else []:
        print(line)
    print(f"point {point}: {len(places)} places, and {len(others)} hits that are none")


def laid_out(commit, folder):
    """The tree of a commit, in a folder."""
    packed = subprocess.run(["git", "archive", commit, "crates"], cwd=ROOT, check=True, stdout=subprocess.PIPE).stdout
    subprocess.run(["tar", "-x", "-C", folder], input=packed, check=True)
    return Path(folder)


if __name__ == "__main__":
    asked, commit = (sys.argv[1:] + ["", ""])[:2]
    if asked not in [*POINTS, "8", "all"] or len(sys.argv) > 3:
        print("usage: design_places.py 1..8 | all [COMMIT]", file=sys.stderr)
        sys.exit(2)
    with tempfile.TemporaryDirectory() as folder:
        ROOT = laid_out(commit, folder) if commit else ROOT
        for each in [*POINTS, "8"] if asked == "all" else [asked]:
            show(each, asked != "all")
