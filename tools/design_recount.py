#!/usr/bin/env python3
"""Counts the places of docs/DESIGN-PASS.md in another way than design_places.py, with which it shares nothing.

    design_recount.py POINT [COMMIT]    POINT is 1 to 8: a line for each thing that is found, and how many there are
    design_recount.py all [COMMIT]      how many there are for each point; both of that commit's tree where one is named

It reads each .rt file as tokens and goes by their structure, not by names or comments: every enum, every struct that
begins with a number or has a flag, every function that may give a literal 0, every loop, every pair of functions that
are the same up to renaming, every set of types that three signatures have. So it finds more than the places; what it
finds and the other command does not is to be looked at.
"""

import sys

sys.dont_write_bytecode = True  # leave no .pyc behind

import re
import subprocess
import tempfile
from collections import Counter, defaultdict
from itertools import combinations
from pathlib import Path

TOP = Path(__file__).resolve().parents[1]
TOKEN = re.compile(
    r"(?P<skip>\s+|//[^\n]*)|(?P<text>b?\"(?:\\.|[^\"\\])*\"|b?'(?:\\.|[^\\'])')|(?P<word>[^\W\d]\w*)"
    r"|(?P<number>\d\w*)"
    r"|(?P<life>'\w+)|(?P<sign>->|=>|::|\.\.=?|&&|\|\||[-+*/%=!<>|&]=|.)",
    re.S,
)
OPEN, CLOSE = dict(zip("([{", ")]}")), set(")]}")
INTEGERS = {"u8", "u16", "u32", "u64", "usize", "i8", "i64"}
RUST = INTEGERS | set(
    """as bool break const continue crate dyn else enum extern f64 false fn for if impl in let loop match mod move mut
    pub ref return self Self static str struct super trait true type unsafe use where while Ok Err Some None Option
    Result ghost requires ensures""".split()
)


def tokens(text):
    """The tokens of a text, each with its line, comments left out."""
    found, line = [], 1
    for each in TOKEN.finditer(text):
        if each.lastgroup != "skip":
            found.append((each.lastgroup, each.group(), line))
        line += each.group().count("\n")
    return found


def closing(code, at):
    """Where the bracket that opens here closes."""
    depth = 0
    for here in range(at, len(code)):
        depth += (code[here][1] in OPEN) - (code[here][1] in CLOSE)
        if depth == 0:
            return here
    return len(code) - 1


def split(code, sign=","):
    """A list of tokens in parts, at a sign that stands outside all brackets; empty parts are left out."""
    found, depth, part = [], 0, []
    for token in code:
        depth += (token[1] in OPEN or token[1] == "<") - (token[1] in CLOSE or token[1] == ">")
        if token[1] == sign and depth <= 0:
            found, part = found + [part], []
        else:
            part.append(token)
    return [each for each in [*found, part] if each]


def said(code):
    """Tokens as a text."""
    return " ".join(token[1] for token in code)


class Function:
    """A function: its parameters as pairs of a name and a type, its result, its clauses and its body, as tokens."""

    def __init__(self, file, owner, code, at):
        self.file, self.name, self.line, self.owner = file, code[at + 1][1], code[at][2], owner
        here = at + 2
        if code[here][1] == "<":
            while code[here][1] != "(":
                here += 1
        end = closing(code, here)
        self.parameters = []
        for part in split(code[here + 1 : end]):
            name, *kind = [token for token in part if token[0] != "life"]
            if any(token[1] == "self" for token in part):
                lent = "& mut " if "mut" in said(part) else "& " if "&" in said(part) else ""
                self.parameters.append(("self", lent + owner))
            elif kind:
                shown = [token[1] for token in kind[1:]]
                self.parameters.append((name[1] if name[1] != "mut" else kind[0][1], " ".join(shown)))
        here, result = end + 1, []
        while code[here][1] not in ("{", ";", "requires", "ensures", "where"):
            behind = closing(code, here) + 1 if code[here][1] in OPEN else here + 1
            result += code[here:behind]
            here = behind
        self.result = said(result).removeprefix("-> ")
        self.clauses = []
        while code[here][1] in ("requires", "ensures", "where"):
            while code[here][1] not in ("{", ";"):
                here += 1
            if code[here][1] == "{" and code[closing(code, here) + 1][1] in ("requires", "ensures", "{"):
                self.clauses.append(code[here + 1 : closing(code, here)])
                here = closing(code, here) + 1
            else:
                break
        self.body = code[here + 1 : closing(code, here)] if code[here][1] == "{" else []
        self.end = closing(code, here) if code[here][1] == "{" else here

    def path(self):
        """The crate, the module, the type and the name."""
        stem = self.file.stem
        module = [] if stem in ("lib", "main") else [stem]
        return "::".join([self.file.parts[1], *module, *([self.owner] if self.owner else []), self.name])

    def show(self, what):
        """The line that is printed of it."""
        return f"{self.file}:{self.line}: {self.path()}: {what}"


class Tree:
    """All that is read of a tree."""

    def __init__(self, top):
        self.functions, self.enums, self.structs, self.others, self.top = [], [], [], [], top
        for file in sorted(top.glob("crates/*/src/**/*.rt")):
            self.read(file.relative_to(top), tokens(file.read_text(encoding="utf-8")), "")

    def read(self, file, code, owner):
        """The items of a list of tokens; those of an impl or a trait have an owner."""
        at = 0
        while at < len(code):
            word = code[at][1]
            if code[at][0] == "word" and word == "fn" and at + 1 < len(code) and code[at + 1][0] == "word":
                made = Function(file, owner, code, at)
                self.functions.append(made)
                at = made.end
            elif word in ("impl", "trait") and code[at][0] == "word":
                end = next(here for here in range(at, len(code)) if code[here][1] in "{;")
                self.others.append((file, code[at][2], said(code[at:end])))
                words = [token[1] for token in code[at:end] if token[0] == "word" and token[1] not in RUST]
                types = [word for word in words if word[0].isupper() and len(word) > 1] or ["?"]
                if code[end][1] == "{":
                    self.read(file, code[end + 1 : closing(code, end)], types[-1])
                    end = closing(code, end)
                at = end
            elif word in ("enum", "struct") and code[at][0] == "word":
                end = next(here for here in range(at, len(code)) if code[here][1] in ("{", ";", "("))
                inside = split(code[end + 1 : closing(code, end)]) if code[end][1] != ";" else []
                known = self.enums if word == "enum" else self.structs
                known.append((file, code[at][2], code[at + 1][1], code[end][1], inside))
                at = closing(code, end) if code[end][1] in OPEN else end
            elif word == "const" and code[at][0] == "word":
                end = at
                while code[end][1] != ";":
                    end = closing(code, end) + 1 if code[end][1] in OPEN else end + 1
                self.others.append((file, code[at][2], said(code[at:end])))
            at += 1


def bare(part):
    """A field or a case without attributes and `pub`."""
    while part and part[0][1] in ("#", "pub", "ghost"):
        part = part[closing(part, 1) + 1 :] if part[0][1] == "#" else part[1:]
    return part


def named(entry, what):
    """The line that is printed of a type."""
    file, line, name, _, _ = entry
    return f"{file}:{line}: {file.parts[1]}::{name}: {what}"


def results(function):
    """The single words that a function may give: behind each `return`, each arrow, and at the end of each block."""
    code, found, inside = function.body, [], []
    for at, token in enumerate(code):
        inside = [*inside, token[1]] if token[1] in OPEN else inside[:-1] if token[1] in CLOSE else inside
        before = code[at - 1][1] if at else "{"
        behind = code[at + 1][1] if at + 1 < len(code) else "}"
        ends = behind in ("}", ",") or before == "return" and behind == ";"
        if ends and before in ("{", "}", ";", "return", "=>") and inside[-1:] in ([], ["{"]) and token[1] not in CLOSE:
            found.append(token[1])
    return found


def point1(tree):
    """Every enum; every struct that begins with a number or has a flag; functions that give 0, or a bool and more."""
    lines = []
    for entry in tree.enums:
        cases = [bare(part) for part in entry[4]]
        loads = [len(case) > 1 and case[1][1] in "({" for case in cases]
        if any(loads):
            lines.append(named(entry, "enum of " + "; ".join(said(case) for case in cases)))
        elif len(cases) > 1:
            last = cases[-1][0][1]
            lines += [named(entry, f"enum without values, {last} the last")] if "=" not in said(cases[0]) else []
    for entry in tree.structs:
        first = [said(bare(part)) for part in entry[4]]
        if entry[3] == "{" and first and len(first) > 1:
            flags = [each for each in first if each.endswith(": bool")]
            number = re.fullmatch(r"(\w+) : (?:u64|u8|u16|usize)", first[0])
            lines += [named(entry, f"struct of {'; '.join(first)}")] if flags or number else []
    for function in tree.functions:
        given = results(function)
        if function.result in INTEGERS and {"0", "16"} & set(given):
            lines.append(function.show(f"gives {function.result}, such words among it: {', '.join(given)}"))
        elif function.result == "bool" and any(kind.startswith("& mut") for _, kind in function.parameters):
            lines.append(function.show("gives a bool, and has a buffer to write to"))
        elif {"number", "refused", "kind"} & {name for name, kind in function.parameters if kind in INTEGERS}:
            lines.append(function.show("takes a number that says what kind, or whether"))
    return lines


def alpha(code):
    """Tokens with each name replaced by the place of its first appearance, literals by their kind."""
    seen, found = {}, []
    for kind, word, _ in code:
        if kind == "word" and word not in RUST:
            found.append(f"n{seen.setdefault(word, len(seen))}")
        else:
            found.append(kind if kind in ("number", "text") else word)
    return found


def grams(words, size=6):
    """The runs of so many tokens."""
    return Counter(tuple(words[at : at + size]) for at in range(len(words) - size + 1))


def overlap(one, other):
    """The share of runs that two have in common."""
    both, all_of = sum((one & other).values()), sum((one | other).values())
    return both / all_of if all_of else 0


def plain(code):
    """Tokens with each name replaced by one sign, whichever it is: shorter runs of those tell near twins."""
    sign = lambda kind, word: kind if kind in ("number", "text") else word
    return ["n" if kind == "word" and word not in RUST else sign(kind, word) for kind, word, _ in code]


def point2(tree):
    """Pairs of functions equal up to renaming, or nearly; pairs of types with the same names or shapes of fields."""
    lines, bodies = [], [function for function in tree.functions if len(function.body) >= 12]
    seen = {id(f): (alpha(f.body), grams(plain(f.body), 5)) for f in bodies}
    for one, other in combinations(bodies, 2):
        (left, left_runs), (right, right_runs) = seen[id(one)], seen[id(other)]
        if left == right:
            lines.append(one.show(f"the same up to renaming as {other.path()}"))
        elif min(len(left), len(right)) >= 24 and (near := overlap(left_runs, right_runs)) >= 0.6:
            lines.append(one.show(f"runs in common with {other.path()}: {round(100 * near)} %"))
    for one, other in combinations(tree.structs + tree.enums, 2):
        left, right = ([bare(part) for part in entry[4]] for entry in (one, other))
        both = {part[0][1] for part in left if part} & {part[0][1] for part in right if part}
        if one[3] == other[3] == "{" and both and 2 * len(both) >= max(len(left), len(right)):
            lines.append(named(one, f"has {', '.join(sorted(both))} in common with {other[0].parts[1]}::{other[2]}"))
    known = defaultdict(list)
    for function in bodies:
        known[function.name].append(function)
    for same in known.values():
        for one, other in combinations(same, 2):
            near = overlap(seen[id(one)][1], seen[id(other)][1])
            if one.owner == other.owner and one.name != "main" and near >= 0.35:
                lines.append(one.show(f"has its name and much in common with {other.path()}"))
    return sorted(set(lines))


def calls(code):
    """The names of the functions that are called."""
    named = [code[at] for at in range(len(code) - 1) if code[at + 1][1] == "("]
    return [word for kind, word, _ in named if kind == "word" and word[0].islower() and word not in RUST]


def point3(tree):
    """Every `while` and `loop`, every `for` over a range, and every index by a local that is changed."""
    lines = []
    for function in tree.functions:
        code = function.body
        for at, (kind, word, _) in enumerate(code):
            if kind == "word" and word in ("while", "loop"):
                end = next(here for here in range(at, len(code)) if code[here][1] == "{")
                lines.append(function.show(f"{word} {said(code[at + 1 : end])}"))
            if kind == "word" and word == "for" and any(token[1].startswith("..") for token in code[at : at + 12]):
                end = next(here for here in range(at, len(code)) if code[here][1] == "{")
                lines.append(function.show(f"for over a range: {said(code[at + 1 : end])}"))
        opened = [at for at, token in enumerate(code) if token[1] == "[" and at and code[at - 1][0] == "word"]
        by_number = {said(code[at + 1 : closing(code, at)]) for at in opened}
        by_number = [index for index in by_number if re.fullmatch(r"(?:\w+ \+ )?\d+", index)]
        lines += [function.show(f"indexes written out: {', '.join(sorted(by_number))}")] if len(by_number) > 4 else []
        often = [name for name, count in Counter(calls(code)).items() if count > 9]
        lines += [function.show(f"calls {', '.join(often)} once an index")] if often else []
    return lines


OURS = re.compile(r"\b(?:PartialEq|Eq|PartialOrd|Ord|Clone|Copy|Display|Debug|From|TryFrom|Into|Default)\b")


def point4(tree):
    """Functions that only turn a value into another or compare two, without a loop or a call; impls of such traits."""
    impls = [other for other in tree.others if other[2].startswith("impl") and OURS.search(other[2])]
    lines = [f"{file}:{line}: {text}" for file, line, text in impls]
    for function in tree.functions:
        kinds = [kind for _, kind in function.parameters if not re.match(r"& (?:mut |impl )", kind)]
        code, called = function.body, calls(function.body)
        words = [token[1] for token in code]
        looped = {"while", "for", "loop"} & set(words)
        signs = Counter(words)
        orders = bool(set(words) & {"<", ">", "==", "!=", "<=", ">="})
        if function.result == "bool" and len(kinds) > len(set(kinds)) and orders:
            lines.append(function.show("compares"))
        elif not looped and len(set(called)) <= 1 and len(kinds) == 1 and function.result and turns(signs):
            lines.append(function.show(f"turns {kinds[0]} into {function.result}"))
        elif function.result in kinds and kinds.count(function.result) > 1 and not called and len(code) < 16:
            lines.append(function.show("chooses one of two"))
        elif any(re.fullmatch(r"b'[-09a ]'|0x\w{11,}", word) for word in words):
            lines.append(function.show("goes by digits, signs or bits"))
        elif {"write", "print", "write_all"} & set(words) and signs["match"]:
            lines.append(function.show("prints by cases"))
    return lines


def turns(signs):
    """Whether such tokens make one value of another."""
    return signs["match"] or signs["as"] or signs[":"] > 2 or signs["%"] + signs["/"] > 1 or signs["["] > 3


def fact_of(part):
    """The first name of a fact and how many words follow, so that it is the same for other variables."""
    words = [token[1] for token in part if token[1] not in "()"]
    heads = [word for word in words[:2] if word[0].isupper()]
    if heads:
        return heads[0] + (" of column_from" if "column_from" in words else "")
    words = [word for word in words if word not in ("now", "old", "new", ".")]
    return " ".join(re.sub(r"^(?:held|buffer|to|out|text|line)$", "_", word) for word in words)


def point5(tree):
    """Facts of three or more functions' clauses, and sets of two or more types that three or more signatures have."""
    facts, groups, alone = defaultdict(set), defaultdict(set), defaultdict(set)
    for function in tree.functions:
        for clause in function.clauses:
            for part in split(clause, "×"):
                for piece in split(part, "→"):
                    if "≡" not in said(piece) or said(piece).startswith("result . number"):
                        facts[fact_of(piece)].add(function.path())
        given = [re.sub(r"& (?:mut )?", "& ", kind) for _, kind in function.parameters]
        kinds = sorted({kind for kind in given if not re.search(r"impl|\bW\b|\bR\b", kind)})
        for kind in kinds:
            alone[kind].add(function.path())
        for size in (2, 3, 4):
            for group in combinations(kinds, size):
                groups[group].add(function.path())
    often = {fact: where for fact, where in facts.items() if len(where) > 2 and fact}
    lines = [f"{len(where)} functions: fact {fact}: {', '.join(sorted(where))}" for fact, where in often.items()]
    often = {group: where for group, where in groups.items() if len(where) > 2 and not set(group) <= INTEGERS}
    for group, where in often.items():
        larger = any(set(group) < set(other) and 3 * len(often[other]) >= 2 * len(where) for other in often)
        if not larger and 2 * len(where) >= min(len(alone[kind]) for kind in group):
            lines.append(f"{len(where)} functions: types {', '.join(group)}: {', '.join(sorted(where))}")
    return lines


def point6(tree):
    """Signatures and structs with an array or a slice and an integer beside it; indexes by a product or a sum."""
    lines, wide = [], re.compile(r"\[|Places|Table")
    for function in tree.functions:
        kinds = [kind for _, kind in function.parameters]
        if any(wide.search(kind) for kind in kinds) and {"usize", "u16"} & set(kinds):
            lines.append(function.show("takes " + ", ".join(f"{name}: {kind}" for name, kind in function.parameters)))
        elif function.result == "usize" and any(kind.startswith("& mut [") for kind in kinds):
            lines.append(function.show("gives a length of what it put into a buffer"))
        elif re.search(r"\[ at \+ 1 \]", said(function.body)) and re.search(r"\d \*", said(function.body)):
            lines.append(function.show("indexes rows of a flat table"))
    for entry in tree.structs:
        kinds = [said(bare(part)).partition(" : ")[2] for part in entry[4]]
        if entry[3] == "{" and {"usize", "u16"} & set(kinds):
            lines.append(named(entry, "struct of " + "; ".join(said(bare(part)) for part in entry[4])))
    for file, line, text in tree.others:
        if re.match(r"const \w+ : \[", text) or re.search(r"= \d+ \* ", text):
            lines.append(f"{file}:{line}: {text[:70]}")
    return lines


def point7(tree):
    """Functions with a flag among their parameters; types of functions; matches each of whose cases is one call."""
    lines = []
    for function in tree.functions:
        if any(kind == "bool" for _, kind in function.parameters):
            lines.append(function.show("takes a flag"))
        code = function.body
        arms = [code[at + 1 : at + 6] for at in range(len(code) - 2) if code[at][1] == "=>"]
        calling = sum(arm[0][0] == "word" and any(token[1] == "(" for token in arm) for arm in arms)
        lines += [function.show(f"{calling} cases that call")] if calling > 1 else []
    lines += [f"{file}:{line}: {text}" for file, line, text in tree.others if re.search(r"\bfn \(|dyn Fn|\[ fn", text)]
    return lines


def point8(tree):
    """Proof files by what they are; blocks of six lines that stand twice up to renaming; lemmas of one shape."""
    lines, blocks, lemmas, imports = [], defaultdict(list), defaultdict(list), Counter()
    counted = Counter()
    for file in sorted(tree.top.glob("crates/*/proofs/**/*.antt")):
        if file.name == "Lib.antt":
            continue
        text = file.read_text(encoding="utf-8")
        code = [line for line in text.splitlines() if line.strip() and not line.strip().startswith("--")]
        counted["files"] += 1
        counted["lines of code"] += len(code)
        counted[f"files named {file.name}"] += file.name in ("Answers.antt", "Invariants.antt", "Proof.antt")
        body = [line for line in code if not re.match(r"\s*(?:ghost )?use ", line)]
        imports.update(re.findall(r"(?m)^\s*use (\w+)\.", text))
        shaped = [re.sub(r"[^\W\d_][\w'-]*", "n", line) for line in body]
        for at in range(len(shaped) - 5):
            blocks["\n".join(shaped[at : at + 6])].append((file.relative_to(tree.top), at))
        for lemma in re.findall(r"(?m)^(?:pub )?([^\s:]+) : (.+(?:\n +.+)*)", text):
            lemmas[re.sub(r"\s+", " ", lemma[1])].append(f"{file.parts[-3]}/{file.stem}.{lemma[0]}")
        if re.search(r"\.before\.before", text):
            lines.append(f"{file.relative_to(tree.top)}: {len(re.findall(r'before.before', text))} times before.before")
    for shared, where in lemmas.items():
        if len(where) > 1 and not shared.startswith("goal."):
            lines.append(f"one statement {len(where)} times: {', '.join(where)}: {shared[:80]}")
    pairs = Counter()
    for where in blocks.values():
        for one, other in combinations(where, 2):
            if one[0] != other[0]:
                pairs[(one[0], other[0])] += 1
    often = [(pair, count) for pair, count in pairs.most_common() if count > 2]
    lines += [f"{one} ~ {other}: {count} blocks of six lines alike" for (one, other), count in often]
    lines += [f"{count} {name}" for name, count in counted.items() if count]
    return lines + [f"{count} imports from {name}" for name, count in imports.items()]


if __name__ == "__main__":
    asked, commit = (sys.argv[1:] + ["", ""])[:2]
    points = {str(at): globals()[f"point{at}"] for at in range(1, 9)}
    if asked not in [*points, "all"] or len(sys.argv) > 3:
        print("usage: design_recount.py 1..8 | all [COMMIT]", file=sys.stderr)
        sys.exit(2)
    with tempfile.TemporaryDirectory() as folder:
        if commit:
            packing = ["git", "archive", commit, "crates"]
            packed = subprocess.run(packing, cwd=TOP, check=True, capture_output=True).stdout
            subprocess.run(["tar", "-x", "-C", folder], input=packed, check=True)
        tree = Tree(Path(folder) if commit else TOP)
        for point in points if asked == "all" else [asked]:
            found = points[point](tree)
            if asked != "all":
                print("\n".join(found))
            print(f"point {point}: {len(found)} found")
