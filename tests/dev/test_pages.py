"""What dev/check_repository says of the pages: sentences that are too long, and files that are made by nothing named."""

import tempfile
import unittest
from pathlib import Path

import sentence_lengths as lengths

from tests import TOP

from .test_proof_times import tool

PAGE = """# A heading of four words

One two three (`code here`). Four `a b c` five
six [seven eight](page.md#here).
N. McKeown argues so; it holds for n * n slots!

- An item
  goes on. It ends
- The next

| a | row. Of. A table |
|---|---|

```text
a drawing. No sentence.
```

<!-- The list: made by dev/make_list, not by hand. -->
Made words. Many of them.
<!-- The end of the list. -->
![a picture](it.svg)
"""

SENTENCES = (
    "One two three .", "Four Code five six seven eight.", "N. McKeown argues so; it holds for n * n slots!", "An item goes on.",
    "It ends", "The next",
)  # fmt: skip


class Sentences(unittest.TestCase):
    def test_are_found(self):
        """Without headings, tables, code, pictures and made parts; names alone in parentheses are none."""
        found = lengths.sentences(PAGE)
        self.assertEqual([it.rstrip(".!") for it in found], [it.rstrip(".!") for it in SENTENCES])
        self.assertEqual([lengths.words(it) for it in found], [3, 6, 10, 4, 2, 2])
        self.assertEqual(lengths.lengths(PAGE)[:3], (6, 27, 10))

    def test_limits(self):
        """40 words are a sentence and 41 are too many; 18 on average are enough and more are too many."""
        short, even = "Word" + " word" * 16 + " end.", "Word" + " word" * 34 + " end."
        self.assertEqual(lengths.faults("page", short), [])
        self.assertEqual(lengths.faults("page", "One two three.\n" + "Word" + " word" * 31 + " end."), [])
        self.assertEqual(lengths.faults("page", even), ["page: its sentences have 36.0 words on average, over 18"])
        most = "Short.\n" * 9
        self.assertEqual(lengths.faults("page", most + "Word" + " word" * 38 + " end."), [])
        self.assertIn("page: a sentence has 41 words, over 40: Word", lengths.faults("page", most + "Word" + " word" * 39 + " end.")[0])

    def test_plain_pages(self):
        """The pages that are to be plain are there, and have sentences."""
        for name in lengths.PLAIN_PAGES:
            self.assertGreater(lengths.lengths((TOP / name).read_text()).sentences, 20, name)


class MadeFiles(unittest.TestCase):
    TRACKED = ("docs/tiny_tera.1", "docs/pictures/a.svg", "docs/USAGE.md", "crates/a/wrong/tried.txt", "crates/a/wrong/b.edit",
               "viewer/module/a.wasm", "viewer/src/a.js", "examples/a/expected/out.report", "examples/a/in.pcap")  # fmt: skip

    def test_table(self):
        """The names in the first column of the second table, where a cell may have words beside them."""
        page = "| `tool` | x |\n## What is made\n| file | by |\n|---|---|\n| the map in `docs/A.md` | `maker` |\n| `a/*`, `b.1` | by hand |\n"
        self.assertEqual(tool("check_repository").made_names(page), ["docs/A.md", "a/*", "b.1"])

    def test_file_without_a_row(self):
        unlisted = tool("check_repository").unlisted
        names = ["docs/tiny_tera.1", "docs/pictures/b.svg", "crates/*/wrong/tried.txt", "viewer/module/*"]
        self.assertEqual(unlisted(self.TRACKED, names), ["docs/pictures/a.svg", "examples/a/expected/out.report"])
        self.assertEqual(unlisted(self.TRACKED, [*names, "docs/pictures/*", "examples/*/expected/*"]), [])


class Bounds(unittest.TestCase):
    """The numbers of slots in the tables of README.md and docs/WAITING.md, by the formulas beside them."""

    WINDOWS = {"one": lambda n: 2 * n * n - 3 * n + 2, "more": lambda n: 3 if n == 2 else n * (n * n - n + 2) // 2, "firm": lambda n: n * n}

    def rows(self, name, head):
        """The columns of the first table whose head begins so, as numbers."""
        lines = (TOP / name).read_text().splitlines()
        at = next(number for number, line in enumerate(lines) if line.startswith(f"| {head}"))
        ends = next(number for number, line in enumerate(lines[at:], at) if not line.startswith("|"))
        rows = [[int(cell.replace(",", "")) for cell in line.strip("|").split("|")[1:]] for line in (lines[at], *lines[at + 2: ends])]
        self.assertGreater(len(rows[0]), 4)
        return rows

    def bound(self, kind, ports, is_run):
        """A run of three ports or more needs one slot less, except under FIRM."""
        return self.WINDOWS[kind](ports) - (is_run and ports > 2 and kind != "firm")

    def test_readme(self):
        ports, *rows = self.rows("README.md", "N ports, three or more |")
        self.assertEqual(rows, [[self.bound(kind, n, True) for n in ports] for kind in ("one", "more", "firm")])

    def test_waiting(self):
        ports, *rows = self.rows("docs/WAITING.md", "slots until served")
        kinds = (("one", False), ("one", True), ("more", False), ("more", True), ("firm", False))
        self.assertEqual(rows, [[self.bound(kind, n, is_run) for n in ports] for kind, is_run in kinds])


class Versions(unittest.TestCase):
    def faults(self, changes, launcher, package):
        """What is said of three files with these texts."""
        with tempfile.TemporaryDirectory() as room:
            names = {"CHANGELOG.md": changes, "launcher/version.py": launcher, "python/pyproject.toml": package}
            for name, text in names.items():
                Path(room, name).parent.mkdir(exist_ok=True)
                Path(room, name).write_text(text)
            return tool("check_repository").version_faults(Path(room))

    def test_three_places(self):
        """The newest version of the change log is the first, below what is not released."""
        changes, launcher, package = "# Changes\n\n## Unreleased\n\n## 2.1\n\n## 2.0\n", 'VERSION = "2.1"\n', '[project]\nversion = "2.1"\n'
        self.assertEqual(self.faults(changes, launcher, package), [])
        told = "versions differ: CHANGELOG.md has 2.1, launcher/version.py has 2.0, python/pyproject.toml has 2.1"
        self.assertEqual(self.faults(changes, 'VERSION = "2.0"\n', package), [told])
        self.assertEqual(len(self.faults("# Changes\n\n## Unreleased\n", launcher, package)), 1)


if __name__ == "__main__":
    unittest.main()
