"""When the program is built, by which sources, and what is said of it."""

import os
import re
import shutil
import subprocess
import unittest
from unittest import mock

from launcher import sources, there
from launcher.builds import PROGRAM
from launcher.estimate import BY_THE_CLOCK, GAIN, Estimate, seconds_by_crate
from launcher.place import Place
from launcher.proving import Progress

from .scene import CRATES, NO_TOOLCHAIN, SOURCES, TOP, Scene


class Building(Scene):
    def test_first_build(self):
        """A copy of what the program stands on is proved by plain rt ci, and nothing else is there."""
        first = self.launch("gen", "1", "2", "2")
        self.assertEqual((first.returncode, first.stdout), (0, "summary\n"))
        self.assertEqual(self.calls(), ["ci"])
        self.assertIn("tiny_tera: nothing is stored in release/\ntiny_tera: the program is proved first: 3 crates, some ", first.stderr)
        self.assertIn("proved upper, 2 of 3 crates; 1 left, some ", first.stderr)
        self.assertIn("proved tiny_tera, 3 of 3 crates; tests and runs are left\ntiny_tera: 3 crates proved\n", first.stderr)
        names = self.room.joinpath("files").read_text().split()
        kept = [f"./{name}" for name in SOURCES if re.match("crates/(lower|upper|tiny_tera)/|HANDLES|crates.txt", name) and "must-fail" not in name]
        self.assertEqual(sorted(names), sorted(kept))
        second = self.launch("gen", "1", "2", "2")
        self.assertEqual((second.returncode, second.stdout, second.stderr), (0, "summary\n", ""))
        self.assertEqual(self.calls(), [])

    def test_kept_proofs(self):
        """Crates that were proved before are only counted."""
        told = self.launch("gen", "1", "2", "2", RT_KEPT="lower tiny_tera").stderr
        self.assertNotIn("proved lower", told)
        self.assertIn("proved upper, 2 of 3 crates; 1 left", told)
        self.assertIn("3 crates proved, 2 of them by earlier runs on this machine\n", told)

    def test_copy_without_times(self):
        self.build()
        copy = self.room / "copy"
        shutil.copytree(self.top, copy, copy_function=shutil.copyfile)
        for name in ("tiny_tera", "crates/tiny_tera/out/tiny_tera"):
            copy.joinpath(name).chmod(0o755)
        for path in copy.rglob("*"):
            os.utime(path, (1_000_000_000, 1_000_000_000))
        self.assertEqual(self.launch("gen", "1", "2", "2", top=copy).stderr, "")
        self.assertEqual(self.calls(), [])

    def test_what_changes_a_build(self):
        changes = {
            "crates/lower/src/lib.rt": "// LOWER\n",
            "crates/lower/src/more.rt": "// new\n",
            "crates/lower/proofs/walk/Proof.antt": "-- another\n",
            "crates/upper/specs/Lib.antt": "-- another definition\n",
            "HANDLES": "Handles allowed: none.\n",
        }
        self.build()
        for name, text in changes.items():
            with self.subTest(name):
                path = self.top / name
                times = (path.stat().st_atime_ns, path.stat().st_mtime_ns) if path.exists() else None
                path.write_text(text)
                if times:
                    os.utime(path, ns=times)
                told = self.launch("gen", "1", "2", "2").stderr
                self.assertIn(f"{name} changed since the program was proved\ntiny_tera: the program is proved first", told)
                self.assertEqual(self.calls(), ["ci"])

    def test_line_of_a_crate(self):
        self.build()
        path = self.top / "crates.txt"
        path.write_text(CRATES.replace("beside: lower\n", "beside:\nnew: upper\n").replace("upper: lower hex", "upper:  lower hex # Same."))
        self.assertEqual(self.launch("gen", "1", "2", "2").stderr, "")
        path.write_text(CRATES.replace("tiny_tera: upper", "tiny_tera: upper lower"))
        self.assertIn("crates.txt:tiny_tera changed since the program was proved", self.launch("gen", "1", "2", "2").stderr)

    def test_source_that_is_gone(self):
        self.build()
        self.top.joinpath("crates/upper/specs/Lib.antt").unlink()
        self.assertIn("crates/upper/specs/Lib.antt changed", self.launch("gen", "1", "2", "2").stderr)

    def test_what_does_not_change_a_build(self):
        self.build()
        for name in ("crates/beside/src/lib.rt", "crates/lower/must-fail/wrong.edit", "docs/USAGE.md"):
            with open(self.top / name, "a") as file:
                file.write("more\n")
        self.assertEqual(self.launch("gen", "1", "2", "2").stderr, "")
        self.assertEqual(self.calls(), [])

    def test_another_program(self):
        self.build()
        program = self.top / "crates/tiny_tera/out/tiny_tera"
        program.write_text("#!/bin/sh\necho not the proved one\n")
        self.assertEqual(self.launch("gen", "1", "2", "2").stdout, "summary\n")
        self.assertEqual(self.calls(), ["ci"])

    def test_edit_during_a_build(self):
        code = f"echo '// edited' >>'{self.top}/crates/lower/src/lib.rt'"
        first = self.launch("gen", "1", "2", "2", RT_CODE=code)
        self.assertEqual((first.returncode, first.stdout), (1, ""))
        self.assertIn("crates/lower/src/lib.rt was changed while the program was proved: run this again", first.stderr)
        self.calls()
        self.assertEqual(self.launch("gen", "1", "2", "2").stdout, "summary\n")
        self.assertEqual(self.calls(), ["ci"])

    def test_two_launchers(self):
        """The second waits for the first, and finds the program built."""
        words = [str(self.top / "tiny_tera"), "gen", "1", "2", "2"]
        variables = {**self.variables, "RT_CODE": "sleep 0.5"}
        both = [subprocess.Popen(words, env=variables, stdout=subprocess.PIPE, stderr=subprocess.PIPE) for _ in range(2)]
        told = [it.communicate(timeout=60) for it in both]
        self.assertEqual([out for out, _ in told], [b"summary\n"] * 2)
        self.assertEqual(self.calls(), ["ci"])

    def test_build_that_fails(self):
        failed = self.launch("gen", "1", "2", "2", RT_CODE="echo 'error: no proof'; exit 1")
        log = self.room / "home/.cache/nakufisi/proving.log"
        self.assertEqual((failed.returncode, failed.stdout), (1, ""))
        self.assertTrue(failed.stderr.endswith(f"error: no proof\ntiny_tera: the program could not be built; all that was said is in {log}\n"))
        self.assertEqual(log.read_text(), "error: no proof\n")

    def test_no_toolchain(self):
        missing = self.launch("gen", "1", "2", "2", PATH=NO_TOOLCHAIN)
        self.assertEqual((missing.returncode, missing.stdout), (1, ""))
        self.assertEqual(missing.stderr, (
            "tiny_tera: nothing is stored in release/\n"
            "tiny_tera: it is to be proved and built, and the toolchain's rt is not in the path\n"
        ))

    def test_wrong_words_build_nothing(self):
        wrong = self.launch("run", "--rounds", "65", "t", "out", "a")
        self.assertEqual((wrong.returncode, wrong.stderr), (2, "tiny_tera: --rounds 65: R is a number from 1 to 64\n"))
        self.assertEqual(self.launch().returncode, 2)
        self.assertEqual(self.calls(), [])

    def test_gate_notes_what_it_proved(self):
        """The gate builds the program itself: it notes the sums as it begins, and that they were proved as it ends."""
        sums = self.launch("--sums-of-sources").stdout
        names = [line.split("  ")[1] for line in sums.splitlines()]
        self.assertEqual(sorted(names), sorted(set(names)))
        self.assertEqual([it for it in names if "beside" in it or "must-fail" in it], [])
        self.write("began", sums)
        self.assertEqual(self.launch("--record-build", "began").returncode, 1)
        for name in ("tiny_tera", "simulate"):
            made = self.top / "crates" / name / "out" / name
            made.parent.mkdir(exist_ok=True)
            shutil.copy(self.room / "fake", made)
        self.assertEqual(self.launch("--record-build", "began").returncode, 0)
        self.assertEqual(self.launch("gen", "1", "2", "2").stderr, "")
        self.assertEqual(self.calls(), [])
        with open(self.top / "crates/lower/src/lib.rt", "a") as file:
            file.write("// edited during the gate\n")
        late = self.launch("--record-build", "began")
        self.assertEqual(late.returncode, 0)
        self.assertIn("crates/lower/src/lib.rt was changed since its sum was noted", late.stderr)
        self.assertIn("changed since the program was proved", self.launch("gen", "1", "2", "2").stderr)


class Sums(Scene):
    def test_nothing_is_read_again(self):
        """Where nothing moved, a start reads no source, so that it takes no time that grows with their bytes."""
        self.build()
        for path in self.top.rglob("*"):
            os.utime(path, (1_000_000_000, 1_000_000_000))
        build = there.built(Place(str(self.top)), PROGRAM)[0]
        with mock.patch.object(sources, "JUST_WRITTEN_NS", -10**12):  # As if written long ago.
            self.assertEqual(build.changes(), [])
            with mock.patch.object(sources, "sum_of", side_effect=AssertionError("a file is read")):
                self.assertEqual(build.changes(), [])

    def test_just_written_is_read_again(self):
        path = self.jobs / "just"
        path.write_text("one")
        self.assertIsNone(sources.noted(str(path))[1])

    def test_real_crates(self):
        """The crates that the program needs, each after those below it, all with their seconds."""
        order = sources.Sources(str(TOP), PROGRAM.roots).below
        self.assertEqual(list(order)[-1], "tiny_tera")
        self.assertIn("switch_run", order)
        self.assertNotIn("known_answers", order)
        known = seconds_by_crate()
        for at, (name, below) in enumerate(order.items()):
            self.assertIn(name, known, "launcher/data/proof_seconds.md lacks a crate: write it anew with dev/proof_times")
            self.assertLessEqual(set(below), set(list(order)[:at]))


class Estimates(unittest.TestCase):
    BELOW = {"a": [], "b": [], "c": ["a"], "d": ["b", "c"]}
    SECONDS = {"a": 10, "b": 40, "c": 20, "d": 30}

    def estimate(self, processors):
        with mock.patch("launcher.estimate.seconds_by_crate", return_value=self.SECONDS):
            return Estimate(self.BELOW, processors)

    def left(self, processors, done=()):
        return self.estimate(processors).left(done) / BY_THE_CLOCK

    def test_schedule(self):
        """One after the other; side by side, b 0 to 40, a 0 to 10, c 10 to 30, d with two jobs from 40 on."""
        self.assertAlmostEqual(self.left(1), 100)
        self.assertAlmostEqual(self.left(2), 40 + 30 / (1 + GAIN))
        self.assertAlmostEqual(self.left(2, ("a", "b", "c")), 30 / (1 + GAIN))

    def test_longest_chain_first(self):
        """Of three that can begin, those come first behind which most is left: short, then the others side by side."""
        below = {"alone": [], "short": [], "long": ["short"], "other": []}
        seconds = {"alone": 30, "short": 10, "long": 60, "other": 20}
        with mock.patch("launcher.estimate.seconds_by_crate", return_value=seconds):
            whole = Estimate(below, 2)
        self.assertEqual(sorted(below, key=lambda name: -whole.chain[name]), ["short", "long", "alone", "other"])
        self.assertAlmostEqual(whole.left(()) / BY_THE_CLOCK, 70)

    def test_slow_machine(self):
        """Where all so far took twice as long as it should, so does most of the rest; what was kept tells nothing."""
        whole = self.estimate(2)
        expected = whole.left(("b",)) - whole.left(("a", "b", "c"))
        usual, slow = (whole.minutes_left(("a", "c"), ("b",), factor * expected) for factor in (1, 20))
        self.assertEqual(usual, 1)
        self.assertGreater(slow, 3)
        self.assertLessEqual(slow, 20 * whole.left(("a", "b", "c")) / 60)

    def test_nothing_done(self):
        """At the start all that is expected is left, and no more is known before the first crate."""
        whole = self.estimate(1)
        self.assertEqual(whole.minutes_left((), (), 0), round(whole.left(()) / 60))
        self.assertEqual(whole.minutes_left((), (), 60), round((whole.left(()) - 60) / 60))
        self.assertEqual(whole.minutes_left((), tuple(self.BELOW), 5), 1)

    def test_progress(self):
        said = []
        with mock.patch("launcher.estimate.seconds_by_crate", return_value=self.SECONDS), mock.patch("launcher.proving.say", said.append):
            progress = Progress(self.BELOW, 2, clock=lambda: 0)
            for line in ("== a", "fn x: proved", "logic=proved functions=2 sum=0", "rt: a: its tests are proved", "rt: b NOT PROVED",
                         "rt: a proved", "rt: a proved", "rt: c is kept: an earlier run proved the same", "rt: x proved", "rt: b proved", "rt: d proved"):
                progress.line(line)
        self.assertRegex(said[0], re.compile(r"proved a, 1 of 4 crates; 3 left, some \d+ minutes?$"))
        self.assertRegex(said[1], re.compile(r"proved b, 3 of 4 crates; 1 left, some \d+ minutes?$"))
        self.assertEqual(said[2:], ["proved d, 4 of 4 crates; tests and runs are left"])
