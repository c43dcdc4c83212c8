"""dev/make_release: what it stores, and what it compares for the gate."""

import lzma
import shutil
import subprocess

from .scene import FAKE_PROGRAM, KIT, LIBRARY, Stored


class Comparison(Stored):
    """dev/make_release --check, as the gate calls it."""

    def setUp(self):
        super().setUp()
        self.assertEqual(self.launch("--prove", "all").returncode, 0)

    def check(self, status, words, **variables):
        told = self.release("--check", **variables)
        self.assertEqual((told.returncode, told.stderr), (status, ""), told.stdout)
        self.assertIn(words, told.stdout)
        return told.stdout

    def test_alike(self):
        self.check(0, "as stored: tiny_tera\n")
        self.check(0, "as stored: libtiny_tera.a, libtiny_tera.so\n")

    def test_libraries_of_the_gate(self):
        """They are built first, over what rt ci has proved."""
        shutil.rmtree(self.top / "out")
        self.check(1, "libtiny_tera.a: it was not built here")
        self.write("began", self.launch("--sums-of-sources").stdout)
        self.calls()
        told = self.release("--check", "--since", self.jobs / "began")
        self.assertEqual((told.returncode, self.calls()), (0, [f"--since {self.jobs}/began"]), told.stdout)

    def test_changed_byte_of_what_is_stored(self):
        for name in ("tiny_tera", *LIBRARY):
            file = self.top / f"release/{name}.xz"
            kept = file.read_bytes()
            file.write_bytes(lzma.compress(lzma.decompress(kept)[:-1] + b"X"))
            self.check(1, f"release/{name}.xz is not what release/made_from.txt states")
            self.check(1, f"release/{name}.xz is not what release/made_from.txt states", RT_KIT="another kit")
            file.write_bytes(kept)

    def test_other_program_is_built(self):
        self.executable(self.room / "fake", FAKE_PROGRAM + "# Other bytes.\n")
        self.assertEqual(self.launch("--prove").returncode, 1)
        self.check(1, "what was built is not what is stored: tiny_tera: run dev/make_release")

    def test_other_library_is_built(self):
        (self.room / "fake.a").write_bytes(b"another\n")
        self.assertEqual(self.launch("--prove", "all").returncode, 1)
        self.check(1, "what was built is not what is stored: libtiny_tera.a")

    def test_changed_source(self):
        self.append("crates/lower/src/new.rt")
        self.check(1, "crates/lower/src/new.rt changed since it was built")
        self.assertEqual(self.launch("--prove", "all").returncode, 0)
        self.check(1, "other sources than those that are stated: crates/lower: run dev/make_release")
        self.assertEqual(self.release().returncode, 0)
        self.check(0, "as stored: tiny_tera")

    def test_another_kit(self):
        (self.room / "fake.a").write_bytes(b"another\n")
        self.append("crates/lower/src/lib.rt")
        told = self.check(0, f"nothing is compared: what is stored was made with {KIT}, and here is another kit", RT_KIT="another kit")
        self.assertNotIn("as stored", told)

    def test_another_linker(self):
        """Without the linker that is stated the shared object is not compared, and all else is."""
        self.executable(self.room / "bin/ld", "#!/bin/sh\necho another linker\n")
        (self.room / "fake.so").write_bytes(b"another\n")
        self.assertEqual(self.launch("--prove", "all").returncode, 0)
        self.check(0, "as stored: libtiny_tera.a; not compared: libtiny_tera.so was linked with ")

    def test_what_is_not_of_the_sources_is_not_stored(self):
        self.append("crates/lower/src/lib.rt")
        told = self.release()
        self.assertEqual(told.returncode, 1)
        self.assertIn("tiny_tera: crates/lower/src/lib.rt changed since it was built: run ./tiny_tera --prove all first", told.stdout)

    def test_sums_by_hand(self):
        """The sums of made_from.txt are those of its first lines."""
        script = (
            '{ echo "upper: lower hex"; find crates/upper/src crates/upper/specs -type f | LC_ALL=C sort | xargs sha256sum; } | sha256sum; '
            "sha256sum <HANDLES; xz -dc release/tiny_tera.xz | sha256sum"
        )
        told = subprocess.run(["sh", "-c", script], cwd=self.top, stdout=subprocess.PIPE, universal_newlines=True).stdout.split()[::2]
        lines = (self.top / "release/made_from.txt").read_text().splitlines()
        for found, line in zip(told, ("source: {}  crates/upper", "source: {}  HANDLES", "made: {}  tiny_tera")):
            self.assertIn(line.format(found), lines)
        self.assertEqual(lines[[it.startswith("#") for it in lines].index(False)], f"kit: {KIT}")
