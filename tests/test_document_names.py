"""Tries the looking over of documents on a small made-up repository: as it should be, and with each fault."""

import sys

sys.dont_write_bytecode = True  # leave no .pyc behind

import io
import unittest
from contextlib import redirect_stdout
from pathlib import Path
from tempfile import TemporaryDirectory

sys.path.insert(0, str(Path(__file__).resolve().parent))

import document_names

README = """# A repository

    cd crates/low && rt check && bash tests/run < crates/low/specs/Told.antt
    rt lib low && ls out/liblow.a && crates/low/out/low && gcc crates/low/out/liblow.a -L crates/low/out -o target/low

`low` is told by `told` and `ask_open`, joined by `◌⊕◌`; `low::open::ask_open(n)`, `open::ask_open` and `Answer` are in
the code, with `Answer::Gives`, `None`, `Option`, `seeker`, `low::Answer::number(answer)`, `open::Lent::count` and what is `counted`; and `tests/run` and [the promises](docs/PROMISES.md) are files; `rt ci NAME`, `rt all check` and
`crates/NAME/src/` stand for others, and `rt check --only FUNCTION` for a part.
"""
AFTER = README.count("\n") + 2  # the number of a line behind it
PROMISES = """# Promises

| function | promise | definition |
|---|---|---|
| `low::asked` | What is told of a number, for every one that there is and for no other. | `told`, `low/specs/Told.antt` |

| law | what it says | where |
|---|---|---|
| `told-law` | It holds. | `low/proofs/Told.antt` |
"""
LIB = """// old_name is in a comment alone
pub fn asked<R>(n: u64) {}
pub enum Answer<T> {
    Gives(T),
    None = 2,
}

impl<T> Answer<T> {
    // A number: {
    pub fn number(self) -> u64
        ensures { result ≡ told 1 }
    {
        1
    }
}
"""
OPEN = """pub fn ask_open(n: u64) {}

pub struct Lent<'a> {
    pub count: &'a u64,
    pub ghost counted: { told count.now ≡ 1 },
}
"""
FILES = {
    "crates.txt": "# crates\nlow staticlib: seeker\n",
    "crates/low/src/lib.rt": LIB,
    "crates/low/src/open.rt": OPEN,
    "crates/low/specs/Told.antt": "-- old-law is stated in a comment alone\nabbrev pub told : ℕ → ℕ\ntold n = n\n",
    "crates/low/specs/Joined.antt": "infix 80 ◌⊕◌\nabbrev pub ◌⊕◌ : ℕ → ℕ → ℕ\na ⊕ b = a + b\n",
    "crates/low/proofs/Told.antt": "pub told-law : told 0 ≡ 0\ntold-law = refl\n",
    "crates/low/out/made/Built.antt": "pub built : told 0 ≡ 0\nbuilt = refl\n",
    "tests/run": "",
    "README.md": README,
    "CONTRIBUTING.md": "# Contributing\n",
    "docs/PROMISES.md": PROMISES,
}


class Documents(unittest.TestCase):
    """What is said of the documents of a repository."""

    def look(self, place="README.md", text=README):
        """The status and the lines that are printed where one file has another text."""
        with TemporaryDirectory() as folder:
            root = Path(folder)
            for each, written in {**FILES, place: text}.items():
                (root / each).parent.mkdir(parents=True, exist_ok=True)
                (root / each).write_text(written, encoding="utf-8")
            with redirect_stdout(io.StringIO()) as printed:
                status = document_names.look(root)
        return status, printed.getvalue().splitlines()

    def test_right(self):
        """Nothing is said of documents that are right."""
        status, printed = self.look()
        self.assertEqual((status, len(printed)), (0, 1), printed)

    def test_names(self):
        """A name, a file, a command or a link that is not there, though a comment may have the name."""
        for wrong, said in (
            ("`ask_shut`", "no `ask_shut`"),
            ("`old_name`", "no `old_name`"),
            ("`old-law`", "no `old-law`"),
            ("`told-lie n`", "no `told-lie`"),
            ("`low::ask_open`", "no `low::ask_open`"),
            ("`shut::ask_open`", "no `shut::ask_open`"),
            ("`low::number`", "no `low::number`"),
            ("`low::Answer::asked`", "no `low::Answer::asked`"),
            ("`Answer::Takes`", "no `Answer::Takes`"),
            ("`low::Lent::number`", "no `low::Lent::number`"),
            ("`counting`", "no `counting`"),
            ("`low/specs/Asked.antt`", "no `low/specs/Asked.antt`"),
            ("`Asked.antt`", "no `Asked.antt`"),
            ("`Built.antt`", "no `Built.antt`"),
            ("`built`", "no `built`"),
            ("`◌⊗◌`", "no `◌⊗◌`"),
            ("`rt prove-all`", "no `rt prove-all`"),
            ("`rt check lower`", "no `rt check lower`"),
            ("`rt all fmt`", "no `rt all fmt`"),
            ("`stated`", "no `stated`"),
            ("`told` and ` alone", "a text in backticks goes over the end of the line"),
            ("[a page](docs/NONE.md)", "no docs/NONE.md"),
        ):
            status, printed = self.look(text=README + f"\nAlso {wrong}.\n")
            self.assertEqual((status, len(printed)), (1, 2), (wrong, printed))
            self.assertEqual(printed[0], f"README.md:{AFTER}: {said}")
        for line, said in (
            ("bash tests/run_none | cat", "no tests/run_none"),
            ("report=$(crates/lower/out/lower < tests/run)", "no crates/lower/out/lower"),
            ("gcc crates/low/out/liblower.a", "no crates/low/out/liblower.a"),
            ("gcc -L crates/lower/out", "no crates/lower/out"),
            ("out/lower < tests/run", "no out/lower"),
            ("cat crates/low/out/made/Built.antt", "no crates/low/out/made/Built.antt"),
            ("target/bin/low < tests/run", "no target/bin/low"),
            ("rt chekc low && cat", "no rt chekc"),
            ("rt lib lower", "no rt lib lower"),
        ):
            status, printed = self.look(text=README + f"\n    {line}\n")
            self.assertEqual((status, printed[0]), (1, f"README.md:{AFTER}: {said}"))

    def test_records(self):
        """A record may have the names of its time, but no command or link that is not there."""
        for place in document_names.RECORDS:
            self.assertEqual(self.look(place, "# Then\n\n`gone_by_now` was `low::old_name`, in\n\n    low/specs/Gone.antt\n")[0], 0)
            status, printed = self.look(place, "# Then\n\n`rt lib lower` and [a page](NONE.md)\n")
            self.assertEqual((status, len(printed)), (1, 3), printed)

    def test_rows(self):
        """A definition or a law that is not in the file that its row names."""
        for old, new in (("`told`, `low/specs", "`asked`, `low/specs"), ("| `told-law` |", "| `told` |")):
            status, printed = self.look("docs/PROMISES.md", PROMISES.replace(old, new))
            self.assertEqual((status, len(printed)), (1, 2), printed)
            self.assertIn("is not in low/", printed[0])

    def test_sentences(self):
        """A sentence that stands in two documents, broken over lines or in a table."""
        again = "Elsewhere. What is told of a number, for every\none that there is and for no other. And on.\n"
        status, printed = self.look("CONTRIBUTING.md", again)
        self.assertEqual((status, len(printed)), (1, 2))
        self.assertTrue(printed[0].startswith("in CONTRIBUTING.md and docs/PROMISES.md: What is told of a number"))

    def test_length(self):
        """README with a line too many."""
        filled = README + "\n" * (document_names.README_LINES - README.count("\n"))
        self.assertEqual(self.look(text=filled)[0], 0)
        status, printed = self.look(text=filled + "\n")
        self.assertEqual((status, printed[0]), (1, "README.md has 131 lines, more than 130"))


if __name__ == "__main__":
    unittest.main()
