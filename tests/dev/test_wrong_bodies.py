"""The tries of wrong bodies: how edits are read and put into rounds, what a check tells of each, and the records."""

import tempfile
import unittest
from pathlib import Path
from unittest import mock

import tried_records as records
import wrong_checks
import wrong_edits
from source_functions import functions_of, stated
from tried_records import Record, Row

from .test_proof_times import tool

SOURCE = """/// A limit.
pub const MOST: u32 = 4;

/// One more.
pub fn more(x: u32) -> u32
    requires { x < MOST }
    ensures { result ≡ x + 1 }
{
    // The next.
    if x < 3 {
        x + 1
    } else {
        4
    }
}

impl Thing {
    fn less(&self) -> u32 {
        self.x - 1
    }
}

trait Named {
    fn name(&self) -> u32
        ensures { result < 4 };
}
"""
MORE = "file: src/lib.rt\nold: x + 1\nnew: x + 2\n"
LESS = "file: src/lib.rt\nold: self.x - 1\nnew: self.x\n"
MOST = "file: src/lib.rt\nold: MOST: u32 = 4\nnew: MOST: u32 = 5\n"
SAID = """./proofs/more/Answers.antt:9:40: error: `returns-else`: `omega`: the goal does not follow
fn low::Thing::less: no proof: expected answers in ./proofs/Thing/less/Answers.antt; `search` did not prove `sub-fits`, `returns`
fn low::more: not proved
fn low::twice: no proof: it calls `low::more`, which is not proved
fn low::kept: proved
logic=not-proved"""
KIT, SAME_LOGIC, OTHER_LOGIC = "kit-1 logic 0123", "kit-2 logic 0123", "kit-1 logic 4567"


class Sources(unittest.TestCase):
    def test_bodies(self):
        lines = SOURCE.split("\n")
        found = {it.name: lines[it.begin:it.end] for it in functions_of(lines)}
        self.assertEqual(list(found), ["more", "less"])
        self.assertEqual((found["more"][0], found["more"][-1]), ("    // The next.", "    }"))
        self.assertEqual(found["less"], ["        self.x - 1"])

    def test_empty_body(self):
        self.assertEqual(functions_of(["pub fn law()", "    ensures { ⊤ }", "{}"]), [("law", 0, 3, 2, False)])

    def test_what_is_stated(self):
        """A body, a comment and what is private are not stated; a constant and a contract are."""
        private = SOURCE.replace("pub fn more", "fn more")
        self.assertNotIn("result ≡ x + 1", stated(private))
        self.assertEqual(stated(private), stated(private.replace("fn more", "pub(crate) fn more")))
        same = SOURCE.replace("x + 1\n    }", "x + 2\n    }").replace("/// One more.", "/// More.")
        self.assertEqual(stated(SOURCE), stated(same))
        for old, new in (("result ≡ x + 1", "result ≡ x"), ("MOST: u32 = 4", "MOST: u32 = 5"), ("result < 4", "result < 5")):
            self.assertNotEqual(stated(SOURCE), stated(SOURCE.replace(old, new)))


class InARepository(unittest.TestCase):
    """A repository of two crates, of which the upper one, `high`, has edits."""

    def setUp(self):
        room = tempfile.TemporaryDirectory()
        self.addCleanup(room.cleanup)
        self.top = Path(room.name)
        self.put("crates.txt", "low:\nhigh: low\n")
        for name in ("low", "high"):
            self.put(f"crates/{name}/src/lib.rt", SOURCE)
            self.put(f"crates/{name}/specs/Lib.antt", "-- A comment.\npub mod Words\n")
            self.put(f"crates/{name}/proofs/Lib.antt", "")
        self.put("crates/high/must-fail/two_more.edit", MORE.replace("old: x + 1", "old:         x + 1"))
        self.put("crates/high/wrong/none_less.edit", LESS)
        self.put("crates/high/wrong/limit.edit", MOST)
        self.put("crates/high/wrong/two_more_at_the_end.edit", MORE.replace("old: x + 1", "old:         4").replace("x + 2", "5"))
        self.folder = self.top / "crates/high"

    def put(self, name, text):
        file = self.top / name
        file.parent.mkdir(parents=True, exist_ok=True)
        file.write_text(text, encoding="utf-8")


class Edits(InARepository):
    def test_functions(self):
        found = {it.name: wrong_edits.function_of(it, self.folder) for it in wrong_edits.edits_of(self.folder)}
        self.assertEqual(found["must-fail/two_more"], ("src/lib.rt", "more"))
        self.assertEqual(found["wrong/none_less"], ("src/lib.rt", "less"))
        self.assertIsNone(found["wrong/limit"])

    def test_rounds(self):
        """One edit of a function in a check, and an edit of no body alone."""
        rounds = wrong_edits.rounds_of(wrong_edits.edits_of(self.folder), self.folder)
        names = [[it.name for it in edits] for edits in rounds]
        self.assertEqual(names, [["must-fail/two_more", "wrong/none_less"], ["wrong/two_more_at_the_end"], ["wrong/limit"]])

    def test_what_cannot_be_applied(self):
        """An old text that stands twice, and one that is not there."""
        for text in (MORE, MORE.replace("old: x + 1", "old: y + 1"), "file: src/lib.rt\n"):
            self.put("crates/high/wrong/bad.edit", text)
            with self.assertRaises(wrong_edits.BadEdit):
                wrong_edits.changed({}, wrong_edits.read_edit(self.folder / "wrong/bad.edit"), self.folder)


class Tries(InARepository):
    """The tries of a crate over checks that are made up."""

    def tried(self, checks):
        """The crate after its tries, whose checks say one after the other what is given."""
        said = [wrong_checks.Check(1 if "not-proved" in it else 0, it.split("\n"), 1) for it in checks]
        module = tool("wrong_bodies")
        with mock.patch.object(module, "check", side_effect=said), mock.patch.object(module, "kit_line", return_value="kit"), \
                mock.patch.object(records, "below_sums", return_value={}):
            room = mock.Mock(top=self.top, folder=self.top)
            return module.Crate(room, "high").try_all()

    def test_all_are_refused(self):
        said = SAID.replace("low", "high")
        crate = self.tried([said, said, said.replace("high::more", "high::most")])
        self.assertEqual(crate.faults, [])
        rows = {row.name: (row.function, row.refusal) for row in crate.record.rows}
        self.assertEqual(rows["must-fail/two_more"], ("more", "`returns-else`"))
        self.assertEqual(rows["wrong/none_less"], ("Thing::less", "`sub-fits`"))
        self.assertEqual((len(rows), crate.checks), (4, 3))

    def test_one_is_let_through(self):
        """A function that is proved with its edit is tried in a round again, and then alone."""
        said = SAID.replace("low", "high")
        proved = said.replace("more: not proved", "more: proved")
        crate = self.tried([proved, said, proved, "fn high::more: proved\nlogic=proved", said])
        self.assertEqual(crate.faults, ["must-fail/two_more: LET THROUGH: the crate is proved with it"])
        self.assertNotIn("must-fail/two_more", [row.name for row in crate.record.rows])

    def test_one_that_calls_another(self):
        """A function that only calls one that is not proved is tried again, without that."""
        said = SAID.replace("low", "high")
        shadowed = said.replace("high::more: not proved", "high::more: no proof: it calls `high::Thing::less`, which is not proved")
        crate = self.tried([shadowed, said, said, said])
        self.assertEqual((crate.faults, len(crate.record.rows)), ([], 4))

    def test_text_that_cannot_be_read(self):
        said = "./src/lib.rt:3:1: error: expected an expression\nlogic=not-proved"
        crate = self.tried([said] * 8)
        self.assertEqual(len(crate.faults), 4)
        self.assertTrue(all("BAD EDIT" in it for it in crate.faults))


class Records(InARepository):
    def setUp(self):
        super().setUp()
        rows = [Row(it.name, it.sum, "more", "`returns-else` of it") for it in wrong_edits.edits_of(self.folder)]
        sums = records.own_sum(self.folder), records.proofs_sum(self.folder)
        self.record = Record(KIT, *sums, records.below_sums(self.top, "high"), sorted(rows))
        records.write_record(self.folder, self.record)

    def fault(self, kit=KIT):
        return records.fault_of(self.top, "high", kit)

    def test_is_read_as_written(self):
        self.assertEqual(records.read_record(self.folder), self.record)
        self.assertEqual((self.fault(), self.fault(None)), ("", ""))

    def test_another_kit(self):
        """A record holds for each kit of the same logic, and for no other."""
        self.assertEqual(self.fault(SAME_LOGIC), "")
        self.assertEqual(self.fault(OTHER_LOGIC), f"they were tried with another logic, that of {KIT}")
        self.assertEqual(self.fault(""), f"they were tried with another logic, that of {KIT}")

    def test_logic(self):
        self.assertEqual([records.logic_of(it) for it in (KIT, SAME_LOGIC, "kit 1", "")], ["logic 0123", "logic 0123", "kit 1", ""])

    def test_changed_text(self):
        self.put("crates/high/specs/Lib.antt", "-- More is to come.\npub mod Words\n")
        self.assertEqual(self.fault(), "")
        self.put("crates/high/specs/Lib.antt", "mod More\n")
        self.assertEqual(self.fault(), "it changed since they were tried")

    def test_changed_proofs(self):
        """No proof makes a wrong body a right one; still they are tried again where no crate is named."""
        self.assertFalse(records.is_old(self.top, "high", KIT))
        self.put("crates/high/proofs/Lib.antt", "mod More\n")
        self.assertEqual(self.fault(), "")
        self.assertTrue(records.is_old(self.top, "high", KIT))

    def test_changed_below(self):
        """A body below is not stated; a contract is."""
        self.put("crates/low/src/lib.rt", SOURCE.replace("self.x - 1", "self.x - 2"))
        self.assertEqual(self.fault(), "")
        self.put("crates/low/src/lib.rt", SOURCE.replace("result < 4", "result < 5"))
        self.assertEqual(self.fault(), "what is stated in low changed since they were tried")

    def test_other_edits(self):
        self.put("crates/high/wrong/limit.edit", MOST.replace("5", "6"))
        self.assertEqual(self.fault(), "other wrong bodies were tried than it has")

    def test_no_record(self):
        self.assertEqual((records.untried(self.top), records.faults(self.top, KIT)), ([], []))
        self.assertEqual(len(records.faults(self.top, OTHER_LOGIC)), 1)
        (self.folder / "wrong/tried.txt").unlink()
        self.assertEqual((records.untried(self.top), records.faults(self.top, OTHER_LOGIC)), (["high"], []))
