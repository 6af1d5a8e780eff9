"""Tries the working out of what must be believed on a small made-up repository: as it should be, and with each fault."""

import sys

sys.dont_write_bytecode = True  # leave no .pyc behind

import io
import unittest
from contextlib import redirect_stdout
from pathlib import Path
from tempfile import TemporaryDirectory

sys.path.insert(0, str(Path(__file__).resolve().parent))

import specs_table
from believed import book, closure, contracts, definitions

LOW = """// A low crate.
#![tactic(auto)]
ghost use Rattle.low.specs.Told.{told, Sort};
mod inside;
mod shared;
pub mod open;
pub use shared::handed_on;

// private_word stands in a comment
#[tactic(auto, unfolding(crate::specs::Told::told))]
pub fn asked<R: Read>(n: &mut R) -> u64
    requires { Reached (Sort n.now) }
    ensures value { result ≡ told n.now }
    ensures { n.new ≡ n.old }
{
    n
}

fn hidden(n: u64) -> u64
    ensures { result ≡ asks n }
{
    n
}
"""
INSIDE = """// A private module.
ghost use Rattle.low.specs.inner.Asks.{asks};
pub fn helper(n: u64) -> [u64; 2]
    ensures { result ≡ asks n }
{ n }
"""
SHARED = """// A private module, one function of which is handed on.
ghost use Rattle.low.specs.Told.{handed};
ghost use Rattle.low.specs.inner.Asks.{asks};
pub fn handed_on(n: u64) -> u64
    ensures { result ≡ (handed n).asks }
{ n }

pub fn kept(n: u64) -> u64
    ensures { result ≡ asks n }
{ n }
"""
OPEN = """// A public module.
ghost use Rattle.low.specs.Told as t;
#[unsafe(no_mangle)]
pub extern "C" fn ask_open(n: u64) -> u64
    ensures { result ≡ t.openly n }
{ n }
"""
TOLD = """-- What is told.
-- Assumes nothing.
use Rattle.std.specs.Prelude.{ℕ, ◌+◌}
use Rattle.std.specs.List.{take}

-- 01, The sheet: what is told
unfoldable pub told : ℕ → ℕ
told n =
    -- a comment inside counts as no line, and private names in it as nothing: asks
    n + twice n

-- No part of the paper: a helper
abbrev pub twice : ℕ → ℕ
twice n = n ⊕ n

-- No part of the paper: an operator
infix 80 ◌⊕◌
abbrev pub ◌⊕◌ : ℕ → ℕ → ℕ
a ⊕ b = a + b

-- 01, Wrong turns and The sheet: sorts
pub data Sort (n : ℕ) : Type 0 where
  odd : Sort n
  even : Sort n

-- 01, Member, line, floor: told openly
abbrev pub openly : ℕ → ℕ
openly n = n

-- 01, Buyer's note: handed on; `take` is the kit's
abbrev pub handed : ℕ → ℕ
handed n = take n
"""
ASKS = """-- What private functions ask.
use Rattle.low.specs.Told.{told}

-- asked by private functions alone
abbrev pub asks : ℕ → ℕ
asks n = told n
"""
PROGRAM = """// A program.
ghost use Rattle.low.specs.Told.{even};
fn put(n: u64) -> u64
    ensures* { ⌜ even.kind ≡ result ⌝ }
{ n }

fn main() {
    put(1);
}
"""
PROMISES = """# Promises

| function | promise |
|---|---|
| `low::asked(n)` | What is told. |
| `low::shared::handed_on(n)` | What is handed on. |
| `low::open::ask_open(n)` | What is told openly. |
"""
# A module with the language's other forms: methods, generics, ghost fields, traits, closures.
KINDS = """// A private module, whose types are handed on.
ghost use Rattle.low.specs.Kinds.{opened_of, number_of};

/// Which kind it is; a text in quotes is no code: {
#[derive(Clone, Copy, PartialEq, Eq)]
pub enum Kind<'a, T: Copy> {
    First = 1,
    Named { name: &'a str, of: T },
}

// What a module and a lifetime lend.
#[derive(Clone, Copy)]
pub struct Seen<'a, F: Fn(u64) -> u64, const N: usize> {
    pub held: &'a [u64; N],
    pub with: Pair<F, u64>,
    pub ghost opens: { ∥ Reached (opened_of held.now) ∥₁ },
}

// Nobody else can write one.
#[derive(Drop)]
pub struct Sealed {
    items: Vec<u64>,
    ghost small: { low_enough items.items },
}

// A pair.
pub struct Pair<A, B>(pub A, B);

// A type that is seen only as the result of a function.
pub struct Found {
    pub n: u64,
}

struct Unseen;

impl<T: Copy> Kind<'_, T> {
    ghost use Rattle.low.specs.Kinds.{low_enough};

    // A constant
    pub const MOST: u64 = 1;

    // The number of a kind.
    #[tactic(auto, unfolding(crate::specs::Kinds::number_of))]
    pub const fn number(&self) -> Result<u64, Kind<'_, T>>
        ensures { result ≡ number_of self.now }
        ensures low { low_enough result }
    {
        let is_open = '{';
        Ok(b'}' as u64)
    }

    fn hidden(self) -> u64 {
        1
    }
}

impl<'a, F: Fn(u64) -> u64, const N: usize> Seen<'a, F, N> {
    ghost use Rattle.low.specs.inner.Asks.{asks};

    // What a closure finds first.
    pub fn first<G: FnMut(u64) -> bool>(&self, mut test: G) -> Option<[u64; 2]>
    where
        G: Drop,
        requires { G.IsAlwaysCallable test }
        ensures { result ≡ number_of self.now }
    {
        let twice = |x: u64| -> u64
            requires { asks x }
            ensures is { result ≡ x }
        { x };
        None
    }
}

impl Found {
    pub fn number(self) -> u64
        ensures { result ≡ number_of self }
    {
        self.n
    }
}

impl Unseen {
    pub fn number(self) -> u64 {
        1
    }
}

impl<T: Copy> From<Kind<'_, T>> for u64 {
    ghost from_gives = { number_of };

    fn from(kind: Kind<'_, T>) -> u64 {
        kind.number()
    }
}

// What can be counted.
pub trait Counted {
    ghost count: { Self → ℕ };

    fn count(&self) -> u64
        ensures { result ≡ count self.now };
}

impl Counted for Found {
    ghost count = { number_of };

    fn count(&self) -> u64 {
        self.n
    }
}

// What is found.
pub fn find(n: u64) -> Found
    ensures { result.n ≡ number_of n }
{
    Found { n }
}

#[cfg(test)]
mod tests {
    #[test]
    fn halves() {}
}
"""
KINDS_SPECS = """-- Kinds.
use Rattle.std.specs.Prelude.{ℕ}

-- No part of the paper: opened
abbrev pub opened_of : ℕ → ℕ
opened_of n = n

-- No part of the paper: a number
pub number_of : {A : Type 0} → A → ℕ
number_of a = 1

-- No part of the paper: low
abbrev pub low_enough : ℕ → Type 0
low_enough n = n ≤ 1
"""
KIND_ROWS = "".join(
    f"| `{name}(n)` | A promise. |\n"
    for name in ("low::Kind::number", "Seen::first", "low::Found::number", "low::Counted::count", "low::kinds::find")
)
ROWS = {title: "| a point | `told` (`low/specs/Told.antt`) |" for title in book.ORDER}
SORTS = "| sorts | `odd`, `Sort` (`low/specs/Told.antt`); `asked` (`low/src/lib.rt`) |"
ROWS["Wrong turns"] = f"{SORTS}\n| left out | none: another paper |"
ROWS["Member, line, floor"] = "| openly | `openly` (`low/specs/Told.antt`) |\n| a trial | tried: `tests/trial` prints it |"
ROWS["Buyer's note"] = "| handed | `handed` (`low/specs/Told.antt`) |\n| Here: ours | `told` (`low/specs/Told.antt`) |"


def book_text(rows=None, order=book.ORDER):
    """A book with these rows for some sections."""
    rows = {**ROWS, **(rows or {})}
    parts = [f"## {title}\n\n{book.HEAD}\n|---|---|\n{rows[title]}\n" for title in order]
    return "# Book\n\n" + "\n".join(parts) + f"\n## What must be believed\n\n{book.BEGIN}{book.END}"


FILES = {
    "crates.txt": "# crates\nlow:\nprogram: low\n",
    "crates/low/src/lib.rt": LOW,
    "crates/low/src/inside.rt": INSIDE,
    "crates/low/src/shared.rt": SHARED,
    "crates/low/src/open.rt": OPEN,
    "crates/low/specs/Lib.antt": "-- All.\npub mod Told\npub mod inner\n",
    "crates/low/specs/Told.antt": TOLD,
    "crates/low/specs/inner.antt": "-- Inner.\npub mod Asks\n",
    "crates/low/specs/inner/Asks.antt": ASKS,
    "crates/program/src/main.rt": PROGRAM,
    "tests/trial": "",
    book.BOOK: book_text(),
    book.PROMISES: PROMISES,
}
BROUGHT = "mod kinds;\npub use kinds::{Counted, Kind, Pair, Seen, Sealed, find};\n"
FORMS = {
    "crates/low/src/lib.rt": LOW.replace("mod inside;\n", f"{BROUGHT}mod inside;\n"),
    "crates/low/src/kinds.rt": KINDS,
    "crates/low/specs/Kinds.antt": KINDS_SPECS,
    book.PROMISES: PROMISES + KIND_ROWS,
}


class Made(unittest.TestCase):
    """Repositories in temporary folders."""

    def repository(self, files=None):
        """The root of a repository in which some files are other ones."""
        folder = TemporaryDirectory()
        self.addCleanup(folder.cleanup)
        root = Path(folder.name)
        for place, text in {**FILES, **(files or {})}.items():
            (root / place).parent.mkdir(parents=True, exist_ok=True)
            (root / place).write_text(text, encoding="utf-8")
        return root

    def look(self, root, check):
        """The status and the lines that the script prints."""
        with redirect_stdout(io.StringIO()) as printed:
            status = specs_table.look(root, check)
        return status, printed.getvalue().splitlines()


class Closure(Made):
    """What is reached, and how much that is."""

    def test_reached(self):
        """By reachable functions, public modules, handed-on names and programs; not by private ones or comments."""
        root = self.repository()
        found, (said, strange) = definitions.all_definitions(definitions.read_all(root)), contracts.all_contracts(root)
        counted = [each for each in said if each.counts]
        functions = ["low::asked", "low::shared::handed_on", "low::open::ask_open", "program::put"]
        self.assertEqual(([each.function for each in counted], strange), (functions, []))
        by = closure.reached(found, counted)
        counts = {each.name: each.count for each in found if (each.module, each.name) in by}
        self.assertEqual(counts, {"told": 3, "twice": 2, "◌⊕◌": 3, "Sort": 3, "openly": 2, "handed": 2})

    def test_places(self):
        """A comment's place, and its mark."""
        found = definitions.all_definitions(definitions.read_all(self.repository()))
        places = {each.name: closure.place_of(each) for each in found}
        wanted = {"told": "The sheet", "twice": "", "◌⊕◌": "", "Sort": "Wrong turns", "asks": None}
        self.assertEqual(places, {**wanted, "openly": "Member, line, floor", "handed": "Buyer's note"})

    def test_requests(self):
        """A place in a request of paper 02."""
        text = TOLD.replace("-- 01, Buyer's note: handed on", "-- 02, CR 1: handed on")
        found = definitions.all_definitions(definitions.read_all(self.repository({"crates/low/specs/Told.antt": text})))
        self.assertIn(("handed", "CR 1"), [(each.name, closure.place_of(each)) for each in found])


class Faults(Made):
    """Each fault fails the check, and is said in one line that names it."""

    def complained(self, file, text):
        """The status and what the check says, the summary left off, where the list was written with this file changed."""
        root = self.repository({file: text})
        self.look(root, False)
        status, printed = self.look(root, True)
        return status, printed[:-1]

    def said(self, fragments, file, text):
        """The check fails, and says just these things, in this order."""
        status, printed = self.complained(file, text)
        self.assertEqual((status, len(printed)), (1, len(fragments)), printed)
        for fragment, line in zip(fragments, printed):
            self.assertIn(fragment, line)

    def test_right(self):
        """Nothing is said of a repository that is right, and the count is printed."""
        root = self.repository()
        status, printed = self.look(root, False)
        self.assertEqual(status, 0)
        self.assertIn("| `low/specs/Told.antt` | 15 | `told` `twice` `◌⊕◌` `Sort` `openly` `handed` |", printed)
        self.assertIn("Of the kit they use std.List: take; std.Prelude: ℕ ◌+◌.", printed)
        status, printed = self.look(root, True)
        self.assertEqual((status, len(printed)), (0, 1))
        self.assertTrue(printed[0].startswith("what must be believed: 15 lines, 6 definitions reached"), printed)
        said = len(book.ORDER)
        points = f"{said + 2} points of the papers, {said} said by definitions, theorems or code, 1 tried, 1 by none"
        points += "; 1 of our own"
        self.assertTrue(printed[0].endswith(points), printed)

    def test_private_reached(self):
        """A definition of another shelf that a contract, or a believed definition, reaches."""
        code = LOW.replace("≡ told n.now }", "≡ asks (told n.now) }")
        brought = "ghost use Rattle.low.specs.inner.Asks.{asks};"
        code = code.replace("Told.{told, Sort};", f"Told.{{told, Sort}};\n{brought}")
        where = "low/specs/inner/Asks.antt: `asks` is reached by low::asked"
        wrong = [f"{where}, but stands in specs/inner", "begins with no place in the paper"]
        self.said(wrong, "crates/low/src/lib.rt", code)
        brought = "use Rattle.low.specs.inner.Asks.{asks}"
        other = TOLD.replace("use Rattle.std.specs.List.{take}", brought).replace("take n", "asks n")
        self.said(["reached by `handed` of low, but stands in specs/inner", "no place"], "crates/low/specs/Told.antt", other)

    def test_theorem_asked(self):
        """A definition among the theorems that a private function asks."""
        code = INSIDE.replace("inner.Asks", "theorems.Asks")
        root = self.repository({"crates/low/specs/theorems/Asks.antt": ASKS, "crates/low/src/inside.rt": code})
        self.look(root, False)
        status, printed = self.look(root, True)
        self.assertEqual((status, len(printed)), (1, 2), printed)
        wrong = "`asks` is asked by private functions, by low::inside::helper, but stands in specs/theorems"
        self.assertIn(wrong, printed[0])

    def test_contracts(self):
        """A reachable function without `ensures`, and one that asks for something else, or for more, than `Reached`."""
        silent = OPEN.replace("    ensures { result ≡ t.openly n }\n", "")
        status, printed = self.complained("crates/low/src/open.rt", silent)
        self.assertEqual((status, printed[0]), (1, "low::open::ask_open can be reached, and says nothing of what it gives"))
        more = ("Sort n", "Reached (Sort n) × (n ≤ 1)", "(n ≤ 1) × Reached (Sort n)", "(n ≤ 1) → Reached n", "Reached n ↔ n")
        for asked in more:
            code = LOW.replace("{ Reached (Sort n.now) }", f"{{ {asked} }}")
            self.said(["low::asked can be reached, and asks more"], "crates/low/src/lib.rt", code)

    def test_lent_sheet(self):
        """A sheet that is lent asks that its column is reached, and no limit of its effects."""
        lend, within = ("sheet::Sheet::lend", "requires"), ("sheet::SheetRef.within", "ghost")
        for (function, kind), text, allowed in (
            (lend, "{ Reached self.now.column }", True),
            (lend, "{\n Reached self.now.column\n }", True),
            (lend, "{ Keeps self.now }", False),
            (lend, "{ Reached self.now.column × EffectsWithin self.now.effects }", False),
            (lend, "{ ∥ EffectsWithin effects ∥₁ }", False),
            (within, "{ ∥ Reached column ∥₁ }", True),
            (within, "{ ∥ EffectsWithin effects ∥₁ }", False),
            (within, "{ EffectsWithin effects }", False),
            (within, "{ ∥ EffectsWithin effects ∥₁ × low_enough 1 }", False),
            (("report::report", "requires"), "{ Keeps self.now }", False),
            (("sheet::Sheet.within", "ghost"), "{ ∥ EffectsWithin effects ∥₁ }", False),
        ):
            made = contracts.Contract(function, [(kind, text)], definitions.Names(), True, True, asks=kind == "ghost")
            self.assertEqual(contracts.asked_too_much(made), [] if allowed else [text], (function, text))

    def test_unreached(self):
        """A definition at the top that no contract reaches, and one on a shelf that there is not."""
        spare = "\n-- 01, The sheet: spare\nabbrev pub spare : ℕ\nspare = 0\n"
        self.said(["`spare` is reached by no contract"], "crates/low/specs/Told.antt", TOLD + spare)
        self.said(["which is no shelf"], "crates/low/specs/other/Asks.antt", ASKS)

    def test_unplaced(self):
        """A believed definition without a place or a comment, with a section that there is not, or a place and no words."""
        place = "-- 01, Member, line, floor"
        requests = ("-- 02, CR 99: told openly\n", "-- 02, CR 1:\n", "-- 02, The sheet: told openly\n")
        others = ("-- told openly\n", "-- 01, Some lines: told openly\n", f"{place}:\n", f"{place} told\n", "")
        for comment in (*requests, *others):
            text = TOLD.replace(f"{place}: told openly\n", comment)
            wrong = "`openly` is reached by low::open::ask_open, and its comment begins"
            self.said([wrong], "crates/low/specs/Told.antt", text)

    def test_not_understood(self):
        """A line of definitions or of code that is not understood is said, and not passed over."""
        told, code, lists = "crates/low/specs/Told.antt", "crates/low/src/lib.rt", "Rattle.std.specs.List"
        proofs, all_of = "Rattle.low.proofs.Told.{told}", "Rattle.low.specs.{Told as t}"
        forms = (lists, "Rattle.std.{List.take}", f"{lists}.{{", f"{lists}.{{*}}", f"{lists}.{{take}}  -- it", proofs, all_of)
        for used in forms:
            wrong = f"low/Told.antt:4: not understood, so what it reaches is not seen: use {used}"
            self.said([wrong], told, TOLD.replace(f"use {lists}.{{take}}", f"use {used}"))
        for line in ("20 lines", "handed 0 = take 0", "mutual", "axiom a : ℕ", "pub f {l} : ℕ", "pub f :"):
            self.said(["not understood"], told, f"{TOLD}\n{line}\n")
        brought = (f"ghost use {lists}.{{", f"  ghost use {lists};", f"ghost use {proofs};")
        facts = ("    ghost top: { asks 0 }", "    pub ghost is_low: { asks 0 },")
        for line in (*brought, *facts, "pub use inside::*;", "pub use inside::helper as h;"):
            self.said(["not understood"], code, LOW.replace("mod inside;\n", f"mod inside;\n{line}\n"))
        for function in ("pub const fn one() {}", "pub fn one<F: Fn(u64)>(f: F) {}"):
            wrong = ["low::one can be reached, and says nothing of what it gives", "no row of low::one"]
            self.said(wrong, code, f"{LOW}\n{function}\n")
        whole = "Rattle.low.specs.inner.Asks.asks"
        self.said(["not understood"], code, LOW.replace("≡ told n.now }", f"≡ {whole} (told n.now) }}"))
        self.said(["not understood"], told, TOLD.replace("openly n = n", f"openly n = n\n    + {whole} n"))

    def test_stored_list(self):
        """A list that is not as the files are, one whose marks are gone, and more lines than there may be."""
        self.said(["do not stand there once each"], book.BOOK, book_text().replace(book.END, ""))
        half = book.MOST_LINES // 2  # each has two lines
        many = "".join(f"\n-- 01, The sheet: {n}\nabbrev pub told{n} : ℕ\ntold{n} = told{n + 1}\n" for n in range(half))
        said = self.complained("crates/low/specs/Told.antt", TOLD.replace("n + twice n", "n + twice told0") + many)[1]
        self.assertIn(f"{2 * half + 15} lines must be believed, more than {book.MOST_LINES}", said)
        root = self.repository()
        self.look(root, False)
        told = root / "crates/low/specs/Told.antt"
        told.write_text(TOLD.replace("handed n = take n", "handed n =\n    take n"), encoding="utf-8")
        status, printed = self.look(root, True)
        self.assertEqual((status, len(printed)), (1, 2))
        self.assertIn("is not as the files are", printed[0])

    def test_points(self):
        """A point that nothing says, a name or a file that is not there, and a believed definition that no point names."""
        for cell, wrong in (
            ("", "nothing says it"),
            ("`Sort`", "nothing says it"),
            ("tried: by hand", "nothing says it"),
            ("none:", "nothing says it"),
            ("`Sort` (`low/specs/None.antt`)", "no file low/specs/None.antt"),
            ("`sort` (`low/specs/Told.antt`)", "no `sort` in low/specs/Told.antt"),
            ("`Sort` (`low/specs/Told.antt`); `hid` (`low/src/lib.rt`)", "no `hid` in low/src/lib.rt"),
            ("tried: `tests/none`", "no file tests/none"),
        ):
            status, printed = self.complained(book.BOOK, book_text({"Wrong turns": f"| sorts | {cell} |"}))
            self.assertEqual(status, 1)
            self.assertTrue(any(wrong in line for line in printed), (cell, printed))
        self.said(["no point names `openly`"], book.BOOK, book_text({"Member, line, floor": "| a | none: b |"}))
        for line in ("|a point | none: b |", "- a point", "| | none: b |", "| a | none: b | c |"):
            text = book_text({"Figures to check against": f"| a | none: b |\n{line}"})
            status, printed = self.complained(book.BOOK, text)
            self.assertEqual((status, printed[-1]), (1, f"{book.BOOK}: no row of a table: {line}"))

    def test_sections(self):
        """A section that is missing, in another order, or without a point."""
        exchanged = (book.ORDER[1], book.ORDER[0], *book.ORDER[2:])
        self.said(["its sections are not the papers'"], book.BOOK, book_text(order=exchanged))
        self.said(["no point under Figures"], book.BOOK, book_text({"Figures to check against": ""}))


class Forms(Made):
    """Methods, ghost fields, generics, lifetimes, traits and closures."""

    def complained(self, old, new, file="crates/low/src/kinds.rt"):
        """The status and what the check says where one text of a file is another; the list was written anew."""
        self.assertEqual(FORMS[file].count(old), 1, old)
        root = self.repository({**FORMS, file: FORMS[file].replace(old, new)})
        self.look(root, False)
        status, printed = self.look(root, True)
        return status, printed[:-1]

    def test_read(self):
        """Nothing is said of what is right, and all that another crate can reach is found, with each ghost fact."""
        root = self.repository(FORMS)
        self.look(root, False)
        status, printed = self.look(root, True)
        self.assertEqual((status, len(printed)), (0, 1), printed)
        self.assertIn("reached by the contracts of 11 functions and 5 ghost facts of types;", printed[0])
        said, _ = contracts.all_contracts(root)
        reached = "Kind::number Seen::first Found::number u64::from Counted::count Found::count kinds::find".split()
        facts = "Seen.opens Sealed.small u64.from_gives Counted.count Found.count".split()
        here = {f"low::{each}" for each in reached + facts}
        others = {"low::asked", "low::shared::handed_on", "low::open::ask_open"}
        self.assertEqual({each.function for each in said if each.reachable}, here | others)

    def test_callable(self):
        """What a closure needs to be called may be asked, at all numbers or at one."""
        for asked in ("G.pre test 1", "(n : ℕ) → G.pre test (n + 1)"):
            self.assertEqual(self.complained("G.IsAlwaysCallable test", asked), (0, []))

    def test_kept_names(self):
        """What a block brings in is not brought in for the blocks behind it."""
        root = self.repository(FORMS)
        names = {each.function: each.names for each in contracts.all_contracts(root)[0]}
        self.assertIn("low_enough", names["low::Kind::number"].single)
        self.assertNotIn("low_enough", names["low::Seen::first"].single)
        self.assertIn("number_of", names["low::Seen::first"].single)

    def test_faults(self):
        """Each fault in a form is said in one line."""
        promise = "\n        ensures { result ≡ number_of self }\n    {\n        self.n"
        for old, new, wrong in (
            (promise, "\n    {\n        self.n", "low::Found::number can be reached, and says nothing"),
            ("G.IsAlwaysCallable test", "G.pre test 1 × (n ≤ 1)", "low::Seen::first can be reached, and asks more"),
            ("G.IsAlwaysCallable test", "(n : ℕ) → G.pre test n → n ≤ 1", "low::Seen::first can be reached, and asks more"),
            ("requires { G.", "requires { low_enough self.now }\n        requires { G.", "low::Seen::first can be reached"),
            ("∥ Reached (opened_of held.now) ∥₁", "opened_of held.now", "low::Seen.opens can be reached, and asks more"),
            ("(opened_of held.now) ∥₁", "(opened_of held.now) ∥₁ × low_enough 1", "low::Seen.opens can be reached, and asks"),
            ("    items: Vec", "    pub items: Vec", "low::Sealed.small can be reached, and asks more"),
            ("    ghost from_gives = { number_of };\n", "", "low::u64::from can be reached, and says nothing"),
            ("\n        ensures { result ≡ count self.now }", "", "low::Counted::count can be reached, and says nothing"),
            ("impl Counted for Found {", "impl Model for Found {\n    ghost invariant = { number_of };\n}\n\n"
             "impl Counted for Found {", "low::Found.invariant can be reached, and asks more"),
            ("ghost count = {", "ghost can_count = {", "low::Found.can_count can be reached, and asks more"),
        ):
            status, printed = self.complained(old, new)
            self.assertEqual((status, len(printed)), (1, 1), (old, printed))
            self.assertIn(wrong, printed[0])

    def test_shelves(self):
        """A method, a ghost fact or an impl's member that cites a definition of another shelf; a closure asks privately."""
        brought = "ghost use Rattle.low.specs.inner.Asks.{asks};\nghost use Rattle.low.specs.Kinds.{opened_of"
        text = KINDS.replace("ghost use Rattle.low.specs.Kinds.{opened_of", brought)
        for old, new, who in (
            ("{ low_enough items.items }", "{ asks items.items }", "low::Sealed.small"),
            ("ensures low { low_enough result }", "ensures low { low_enough (asks result) }", "low::Kind::number"),
            ("ghost from_gives = { number_of };", "ghost from_gives = { λ k. number_of (asks k) };", "low::u64.from_gives"),
        ):
            root = self.repository({**FORMS, "crates/low/src/kinds.rt": text.replace(old, new)})
            self.look(root, False)
            status, printed = self.look(root, True)
            self.assertEqual((status, len(printed)), (1, 3), printed)
            self.assertIn(f"`asks` is reached by {who}, but stands in specs/inner", printed[0])
        moved = KINDS.replace("inner.Asks", "theorems.Asks")
        other = {"crates/low/specs/theorems/Asks.antt": ASKS, "crates/low/src/kinds.rt": moved}
        root = self.repository({**FORMS, **other})
        self.look(root, False)
        status, printed = self.look(root, True)
        self.assertEqual((status, len(printed)), (1, 2), printed)
        self.assertIn("`asks` is asked by private functions, by low::Seen::first, but stands in specs/theorems", printed[0])

    def test_promises(self):
        """A method or a function without a row among the promises, and a row of none; a method may go without its crate."""
        place = book.PROMISES
        for name in ("low::Kind::number", "Seen::first", "low::kinds::find", "low::asked"):
            full = name if name.startswith("low::") else f"low::{name}"
            status, printed = self.complained(f"`{name}(", "`(", place)
            self.assertEqual((status, printed), (1, [f"{place}: no row of {full}"]))
        status, printed = self.complained("`Seen::first(", "`low::kinds::Seen::first(", place)
        wrong = [f"{place}: no row of low::Seen::first", f"{place}: low::kinds::Seen::first is no function in reach"]
        self.assertEqual((status, printed), (1, wrong))

    def test_points(self):
        """A point that is said by a method, a case, a field or a fact of a type, and one by what the type has not."""
        for name in ("Kind::number", "Kind::First", "Kind::MOST", "Seen::held", "Seen::opens", "Counted::count"):
            root = self.repository({**FORMS, book.BOOK: book_text({"The work": f"| a | `{name}` (`low/src/kinds.rt`) |"})})
            self.assertEqual(self.look(root, False)[0], 0, name)
        for name in ("Kind::first", "Seen::number", "Sealed::number", "Kind::n"):
            root = self.repository({**FORMS, book.BOOK: book_text({"The work": f"| a | `{name}` (`low/src/kinds.rt`) |"})})
            status, printed = self.look(root, False)
            self.assertEqual((status, printed[-2].endswith(f"no `{name}` in low/src/kinds.rt")), (1, True), printed)

    def test_not_understood(self):
        """A form that is not understood is said, and not passed over."""
        for line in (
            "mod inner { fn a() {} }",
            "macro_rules! made { () => {} }",
            "fn outer() { fn inner() {} }",
            "fn outer() { impl Found {} }",
            "pub enum Which { First { n: u64, ghost low: { asks n } } }",
            "struct Hidden { n: u64, pub(crate) ghost low: { asks n }, }",
            "struct Hidden { n: u64, ghost low: asks n, }",
            "fn given(n: u64) ghost (m : ℕ) { n }",
            "fn sized() -> Held<{ 1 }> { Held }",
            'extern "C" { fn other(n: u64); }',
            "ghost low: { asks n }",
            "fn closing() { let f = |x: u64| requires asks x; }",
            "impl Found { made!(); }",
            "impl Found { ghost use Rattle.low.specs.inner.Asks; }",
            "impl Found { ghost is_low; }",
            "impl Found { struct Inner; }",
        ):
            root = self.repository({**FORMS, "crates/low/src/kinds.rt": f"{KINDS}\n{line}\n"})
            self.look(root, False)
            status, printed = self.look(root, True)
            self.assertEqual((status, len(printed) > 1), (1, True), line)
            for each in printed[:-1]:
                self.assertIn("not understood, so what it reaches is not seen", each, line)


if __name__ == "__main__":
    unittest.main()
