"""Tests of dev/definitions.py and of the page that is made of it."""

import sys
import tempfile
import unittest
from pathlib import Path

ROOT = Path(__file__).resolve().parent.parent.parent
sys.path.insert(0, str(ROOT / "dev"))

import definitions  # noqa: E402
from definitions import Place, Specs  # noqa: E402

LOW = """-- Low words.
use Rattle.std.specs.Prelude.{ℕ}

-- a pair,
-- with its parts
pub record Pair : Type 0 where
  pub left : ℕ

data Kind : Type 0 where
  Uni Multi : Kind

-- unused
abbrev pub other : ℕ → ℕ
other n = n
"""
HIGH = """-- High words.
use Rattle.low.specs.Low.{Pair as Two, Multi}

-- what is promised
abbrev pub Promise : Two → Type 0
Promise pair = part pair Multi

abbrev part : Two → Type 0
part pair = Unit {0}
"""


class Definitions(unittest.TestCase):
    def setUp(self):
        self.room = tempfile.TemporaryDirectory()
        self.addCleanup(self.room.cleanup)
        for crate, file, text in (("low", "Low", LOW), ("high", "High", HIGH)):
            folder = Path(self.room.name) / "crates" / crate / "specs"
            folder.mkdir(parents=True)
            (folder / f"{file}.antt").write_text(text, encoding="utf-8")
        self.specs = Specs(Path(self.room.name))

    def test_what_is_reached_comes_behind_what_names_it(self):
        """A definition is followed by what it rests on; a constructor stands for its type, and what nobody names is left out."""
        promise = Place("high.High", "Promise")
        below = [Place("low.Low", "Pair"), Place("high.High", "part"), Place("low.Low", "Kind")]
        self.assertEqual(self.specs.named_by(promise), below)
        self.assertEqual(self.specs.reached([promise]), [promise, *below])

    def test_a_definition_has_its_comment(self):
        pair = self.specs.at(Place("low.Low", "Pair"))
        self.assertEqual((pair.lines, pair.shown.split("\n")[0]), (4, "-- a pair,"))
        self.assertEqual(pair.text.split("\n")[0], "pub record Pair : Type 0 where")

    def test_a_function_that_decides_is_read_as_its_relation(self):
        """Of the repository: each function that is told by a relation stands there, and the relation too."""
        specs = Specs()
        for function, relation in definitions.TOLD_BY.items():
            self.assertEqual(specs.named_by(function), [relation])
            self.assertIn(relation.name, specs.defined[relation.file])
            self.assertIn(function.name, specs.defined[function.file])


if __name__ == "__main__":
    unittest.main()
