"""Help, the manual page, and that docs/USAGE.md and the launcher say the same of the words."""

import re
import shutil
import subprocess
import unittest
from itertools import accumulate
from math import ceil

from launcher.made import MODULUS, cells_of_packet, largest_count, most_cells
from launcher.page import blocks_of, cells_of, section, synopsis
from launcher.version import VERSION
from launcher.words import COMMANDS, MAX_COUNT, OPTIONS, OWN, Fault, options_of, read_words

from .scene import KIT, PROGRAM, TOP, Scene, python

TEXT = (TOP / "docs/USAGE.md").read_text()
BLOCKS = blocks_of(TEXT)[1]
OF_LINES = blocks_of((TOP / "docs/LINE_RATES.md").read_text())[1]
VECTORS = sorted((TOP / "crates/known_formats/data").glob("*words.txt"))


def rows_of(title, blocks=BLOCKS):
    return [cells_of(row) for lines in section(blocks, title) if lines[0].startswith("|") for row in lines[2:]]


class Help(Scene):
    def test_help(self):
        for words in (["--help"], ["-h"]):
            told = self.launch(*words)
            self.assertEqual((told.returncode, told.stderr), (0, ""))
            for line in synopsis(BLOCKS):
                self.assertIn(f"  {line}\n", told.stdout)
            for word in OWN:
                self.assertIn(word, told.stdout)
        self.assertEqual(self.calls(), [])

    def test_help_of_commands(self):
        for command in COMMANDS:
            with self.subTest(command):
                told = self.launch(command, "--help").stdout
                taken = options_of(command)
                self.assertEqual(re.findall(r"^  (--[a-z-]+)", told, re.M), list(taken))
                wanted = [rf"{it.low:,} to\s+{it.high:,}" for it in taken.values() if it.high]
                wanted += [rf"\b{choice}\b" for it in taken.values() for choice in it.choices]
                self.assertEqual([pattern for pattern in wanted if not re.search(pattern, told)], [])
                self.assertTrue(told.startswith(f"usage:\n  tiny_tera {command} "))
                self.assertRegex(told, f"\nexample:\n  tiny_tera {command} ")
                example = re.search("\nexample:\n  tiny_tera (.*)\n", told)[1]
                self.assertEqual(read_words(example.split()).command, command)
        self.assertEqual(self.launch("run", "--rounds", "2", "-h").stdout, self.launch("run", "--help").stdout)

    def test_version(self):
        none = "no program is there of these sources: {}; it is proved before it runs"
        nothing = none.format("nothing is stored in release/")
        self.assertEqual(self.launch("--version").stdout, f"tiny_tera {VERSION}\n{nothing}\nsimulate: {nothing}\n")
        self.build()
        for words in (["init", "-q"], ["add", "-A"], ["-c", "user.name=x", "-c", "user.email=x@y", "commit", "-qm", "x"], ["tag", "v7"]):
            subprocess.run(["git", "-C", self.top, *words], check=True)
        lines = self.launch("--version").stdout.splitlines()
        self.assertEqual(lines[:2], [f"tiny_tera {VERSION} (v7)", f"proved and built here with {KIT}"])
        self.assertEqual(lines[3:], [f"simulate: {nothing}"])
        self.assertRegex(lines[2], rf"sha256 [0-9a-f]{{64}}  {re.escape(str(self.top))}/crates/tiny_tera/out/tiny_tera$")
        (self.top / "crates/lower/src/lib.rt").write_text("// changed\n")
        lines = self.launch("--version").stdout.splitlines()[:2]
        self.assertEqual(lines, [f"tiny_tera {VERSION} (v7-dirty)", none.format("crates/lower/src/lib.rt changed since it was proved")])
        (self.top / "crates/tiny_tera/out/tiny_tera").write_text("another")
        self.assertEqual(self.launch("--version").stdout, f"tiny_tera {VERSION} (v7-dirty)\n{nothing}\nsimulate: {nothing}\n")


class Page(unittest.TestCase):
    def test_lines_of_blocks(self):
        """Lines end where sentences do; a paragraph is one, and tables and blocks of text keep theirs."""
        title, blocks = blocks_of("# a: b\n\nOne.\nTwo.\n\n| c |\n|---|\n\n```text\nd\ne\n```\n\n## F\n\nThree.\n")
        self.assertEqual((title, blocks[:2]), ("# a: b", [["One. Two."], ["| c |", "|---|"]]))
        self.assertEqual(blocks[2:], [["```text", "d", "e", "```"], ["## F"], ["Three."]])


class Words(unittest.TestCase):
    def test_table_of_options(self):
        """docs/USAGE.md has the options of the launcher's table, with their ranges and who takes them, and no other."""
        rows = {row[0].strip("`").split(" ")[0]: row for row in rows_of("Options")}
        self.assertEqual(list(rows), list(OPTIONS))
        lines = " ".join(synopsis(BLOCKS)).split("tiny_tera ")[1:]
        taken = {line.split()[0]: set(re.findall(r"--[a-z-]+", line)) for line in lines}
        for name, option in OPTIONS.items():
            self.assertEqual({command for command in taken if name in taken[command]}, set(option.commands), name)
            self.assertEqual(rows[name][0], f"`{name} {option.letter}`" if option.letter else f"`{name}`")
            if option.high:
                self.assertIn(f", {option.low:,} to {option.high:,}", rows[name][1])
            for choice in option.choices:
                self.assertIn(f"`{choice}`", rows[name][1])

    def test_vectors(self):
        """The launcher takes the words that the program takes: rows of an independent model."""
        count = 0
        for line in "".join(path.read_text() for path in VECTORS).splitlines():
            found = re.match(r'\?? ?((?:"(?:[^"\\]|\\.)*" ?)*)=> (.*)$', line)
            if not found:
                continue
            words = [it.encode().decode("unicode_escape").encode("latin-1").decode() for it in re.findall(r'"((?:[^"\\]|\\.)*)"', found[1])]
            count += 1
            with self.subTest(line):
                self.assertEqual(job_of(words), found[2].split(" ")[0] if found[2] != "usage" else None)
        self.assertGreater(count, 340)


def job_of(words):
    """The command that words mean, None where they specify no job."""
    try:
        return read_words(words).command
    except Fault:
        return None


class Counts(unittest.TestCase):
    """The largest COUNT of `gen` for each number of ports."""

    COUNTS = [int(word) for line in re.search(r"PORTS +largest COUNT\n(.*?)\n```", TEXT, re.S)[1].splitlines() for word in line.split()[3:]]

    def test_each_number_of_ports(self):
        self.assertEqual(len(self.COUNTS), 64)
        for ports, count in enumerate(self.COUNTS, 1):
            found = [largest_count(seed, ports, MAX_COUNT) for seed in (0, 1, 7, 65_536, 999_999_937)]
            self.assertTrue(count <= min(found) <= max(found) <= count + 34, (ports, count, found))

    def test_all_seeds(self):
        for ports in (1, 2, 4, 8, 32, 33, 64):
            self.assertEqual(self.COUNTS[ports - 1], least_of_all_seeds(ports), ports)

    @unittest.skipUnless(PROGRAM.is_file(), "no program is there")
    def test_program(self):
        for ports in (2, 4, 33):
            count = largest_count(1, ports, MAX_COUNT)
            for given, status in ((count, 0), (count + 1, 4)):
                words = [PROGRAM, "gen", "--workers", "1", "1", str(given), str(ports)]
                self.assertEqual(subprocess.run(words, stdout=subprocess.DEVNULL, stderr=subprocess.DEVNULL).returncode, status)


def least_of_all_seeds(ports):
    """The largest COUNT with which no seed has too many cells. Packet K of all ports has the cells at SEED + 101 K."""
    cells = [cells_of_packet((75 * at + 74) % MODULUS, ports) for at in range(MODULUS)]
    columns = [0] * MODULUS
    for port in range(ports):
        turn = 13 * port
        columns = [one + other for one, other in zip(columns, cells[turn:] + cells[:turn])]
    in_steps = [columns[101 * at % MODULUS] for at in range(MODULUS)]
    sums = list(accumulate(in_steps + in_steps[:MAX_COUNT + 1], initial=0))
    least = MAX_COUNT
    for at in range(MODULUS):
        # A seed can only lower the count.
        while sums[at + least] - sums[at] > most_cells(ports):
            least -= 1
    return least


class LineRates(unittest.TestCase):
    """The numbers of the tables, by hand: a cell is 512 bits; on Ethernet a frame has 24 bytes beside its captured ones."""

    def test_what_to_type(self):
        rows = rows_of("Line rates", OF_LINES)[:6]
        worst = max(cells_of_frame(captured) * 64 / (captured + 24) for captured in range(60, 1515))
        for number, ethernet, rate, slot, longest, of_long in rows:
            number = int(number.replace(",", ""))
            self.assertEqual((ethernet, rate), (f"`--ethernet {number}`", f"`--line-rate {ceil(worst * number - 1e-9)}`"))
            exact = 512e-6 / int(rate.strip("`").split()[1])
            self.assertAlmostEqual(seconds(slot), exact, delta=0.001 * exact)
            for told, slots in ((longest, 131_072), (of_long, 1 << 31)):
                self.assertAlmostEqual(seconds(told), slots * exact, delta=0.06 * slots * exact)

    def test_frames(self):
        rows = rows_of("Line rates", OF_LINES)[6:]
        self.assertEqual([row[0].partition(", ")[0].replace(",", "") for row in rows[:2]], ["60", "97"])
        factors = {captured: cells_of_frame(captured) * 64 / (captured + 24) for captured in range(60, 1515)}
        self.assertEqual(max(factors, key=factors.get), 97)
        for captured, row in zip((60, 97, 1514), rows):
            told = [float(cell.replace(",", "")) for cell in row[1:]]
            self.assertEqual(told[:3], [captured + 24, cells_of_frame(captured), cells_of_frame(captured) * 64])
            self.assertEqual(told[3], ceil(factors[captured] * 1000) / 1000)


def cells_of_frame(captured):
    return -(-(captured + 16) // 56)


def seconds(text):
    number, unit = text.split()
    return float(number) * {"hours": 3600, "minutes": 60, "s": 1, "ms": 1e-3, "us": 1e-6, "ns": 1e-9}[unit]


class Manual(unittest.TestCase):
    def test_is_of_the_page(self):
        told = python(TOP / "dev/make_man", "--check")
        self.assertEqual((told.returncode, told.stdout), (0, ""))

    @unittest.skipUnless(shutil.which("man") and shutil.which("groff"), "there is no man or groff here")
    def test_warnings(self):
        told = subprocess.run(["man", "--warnings", "-l", TOP / "docs/tiny_tera.1"], stdout=subprocess.PIPE, stderr=subprocess.PIPE, universal_newlines=True)
        self.assertEqual((told.returncode, told.stderr), (0, ""))
        self.assertIn("tiny_tera", told.stdout)


class Readme(unittest.TestCase):
    def test_who_only_wants_to_run_it(self):
        text = (TOP / "README.md").read_text()
        for word in ("examples/run", "tests/run", "--prove", "tools/install"):
            self.assertTrue(word in text, f"README.md does not speak of {word}")


class Files(unittest.TestCase):
    def test_lengths(self):
        """Files of the launcher stay short."""
        for path in [TOP / "tiny_tera", TOP / "tools/install", *TOP.glob("launcher/*.py"), *TOP.glob("tests/launcher/*.py")]:
            lines = path.read_text().splitlines()
            self.assertTrue(len(lines) < 400 and max(map(len, lines)) < 160, path)
