#!/usr/bin/env python3
"""Brings the repository's own definitions and lemmas to snake case, as today's Rattle spells words; types, facts and modules
keep their capitals, and the functions of src/ their names. Run once, at the top, after the toolchain's own script."""
import collections
import glob
import re
import sys

DECLARED = re.compile(
    r"^\s*(?:(?:abbrev|unfoldable|pub)\s+)*([^\s:(){}.,;]+)\s*(?:\([^)]*\)|\{[^}]*\})*\s*:(?!\S*=)")
PART = re.compile(r"[^\s(){}\[\].,;:«»\"`⟦⟧⌜⌝|]+")
# What the checker itself calls by such a name, and what only a name of its own tells from another.
KEPT = {"returns-text"}
OWN = {"ofNumber": "refusal_of"}


def snake(name):
    """The name in snake case; a name that begins with a capital is a type's, a fact's or a module's and stays."""
    if not name[0].islower() or not re.search(r"[A-Z·-]", name):
        return name
    parts = [p if p[0].isupper() and i else re.sub(r"(?<=[a-z0-9])([A-Z])", lambda m: "_" + m.group(1).lower(), p)
             for i, p in enumerate(name.split("-")) if p]
    return "_".join(parts).replace("·", "_")


def spec_files():
    return sorted(glob.glob("crates/*/specs/**/*.antt", recursive=True) + glob.glob("crates/*/proofs/*.antt"))


def declared():
    """Each name that a definition, a field, a constructor or a lemma of specs/ or proofs/ has, with its files."""
    names = collections.defaultdict(set)
    for path in spec_files():
        for line in open(path, encoding="utf-8"):
            match = None if line.strip().startswith("--") else DECLARED.match(line)
            if match:
                names[match.group(1)].add(path)
    return names


def imported():
    """Each name that some file takes from a library."""
    names = set()
    for path in glob.glob("crates/**/*.antt", recursive=True) + glob.glob("crates/*/src/**/*.rt", recursive=True):
        for module, items in re.findall(r"use (\S+)\.\{([^}]*)\}", open(path, encoding="utf-8").read()):
            if not module.startswith("Rattle.") or module.startswith(("Rattle.std.", "Rattle.io.", "Rattle.bytes.")):
                names |= {re.split(r"\s+", item.strip())[0] for item in items.split(",")}
    return names


def renamings():
    """Old name to new name; a lemma whose new spelling another name has ends in _lem."""
    names = declared()
    library = imported()
    new = {n: OWN.get(n, snake(n)) for n in names if snake(n) != n and n not in KEPT and n not in library}
    taken = collections.Counter(list(new.values()) + [n for n in names if n not in new] + sorted(library))
    fallen = sorted(n for n in new if taken[new[n]] > 1)
    for name in fallen:
        print(f"falls together: {name} -> {new[name]}", file=sys.stderr)
        if "-" in name:
            new[name] += "_lem"
    return new


def outside_comments(line, mark):
    """Where the comment of a line begins."""
    at = line.find(mark)
    while at > 0 and not line[at - 1].isspace():
        at = line.find(mark, at + 1)
    return len(line) if at < 0 else at


def code(text, new, dashes):
    """Code with its names turned; what stands in quotes stays, and so does a dashed name behind a dot, which is the checker's."""
    out = []
    for i, piece in enumerate(re.split(r'(b?"(?:[^"\\]|\\.)*")', text)):
        if i % 2:
            out.append(piece)
            continue

        def turned(match):
            name = match.group(0)
            dashed = "-" in name
            if dashed and (not dashes or (match.start() and piece[match.start() - 1] == ".")):
                return name
            return new.get(name, name)
        out.append(PART.sub(turned, piece))
    return "".join(out)


def quoted(text, new):
    """Prose with the names turned that stand alone between backticks."""
    return re.sub(r"`([^`\n]+)`", lambda m: "`" + code(m.group(1), new, True) + "`", text)


class Known(dict):
    """The names to turn in edits and documents, which the toolchain's script leaves: also those whose new spelling stands."""

    def __init__(self, new):
        super().__init__(new)
        self.stand = set(new.values()) | set(declared())

    def get(self, name, default=None):
        spelled = snake(name)
        return super().get(name, spelled if spelled in self.stand else default)


def turn(path, new, mark, dashes):
    old = open(path, encoding="utf-8").read()
    lines = []
    for line in old.split("\n"):
        at = outside_comments(line, mark)
        lines.append(code(line[:at], new, dashes) + quoted(line[at:], new))
    text = "\n".join(lines)
    if text != old:
        open(path, "w", encoding="utf-8").write(text)
    return text != old


def main():
    new = renamings()
    count = 0
    for path in glob.glob("crates/**/*.antt", recursive=True):
        count += turn(path, new, "--", True)
    for path in glob.glob("crates/*/src/**/*.rt", recursive=True):
        count += turn(path, new, "//", False)
    known = Known(new)
    for path in glob.glob("crates/*/must-fail/*.edit"):
        count += turn(path, known, "#", True)
    for path in glob.glob("*.md") + glob.glob("docs/**/*.md", recursive=True):
        old = open(path, encoding="utf-8").read()
        text = quoted(old, known)
        if text != old:
            open(path, "w", encoding="utf-8").write(text)
            count += 1
    if "--list" in sys.argv:
        for name in sorted(new):
            print(f"{name} {new[name]}")
    print(f"{len(new)} names, {count} files")


if __name__ == "__main__":
    main()
