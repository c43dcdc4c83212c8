"""Tests of the words, the tables with their intervals and where they come from, and the figures."""

import argparse
import json
import math
import os
import re
import tempfile
import unittest
import unittest.mock
import warnings
from contextlib import redirect_stdout
from pathlib import Path

from measure import simulations, words
from measure.provenance import Provenance, commit, read_lines

from tiny_tera import simulated

from .common import DATA, JOURNAL, PACKETS, QUEUES, REPORT, TOOLS, TOP, lacks, run

TOLD = Provenance(("abc",), ("tools/sweep --small",), ("seeds 1-3",))
WORDS_OF_RUN = {name: f"its {name}" for name in ("kind", "ports", "load", "scheduler", "rounds", "seed", "commit")}


class Words(unittest.TestCase):
    def test_lists(self):
        seeds = words.numbers(0, 99)
        self.assertEqual(words.joined([seeds("1-3,7"), seeds("2"), seeds("10")]), [1, 2, 3, 7, 10])
        self.assertEqual(words.ranges([7, 1, 2, 3, 10, 11]), "1-3,7,10-11")
        for wrong in ("", "a", "3-1", "1-", "-1", "100", "1-100", "1,,2"):
            self.assertRaises(argparse.ArgumentTypeError, seeds, wrong)

    def test_shares(self):
        self.assertEqual((words.share("1"), words.share("0.05")), (1.0, 0.05))
        for wrong in ("0", "1.5", "-0.5", "nan", "x"):
            self.assertRaises(argparse.ArgumentTypeError, words.share, wrong)
        self.assertEqual((words.weight("0"), words.weight("1")), (0.0, 1.0))
        for wrong in ("1.5", "-0.5", "nan", "x"):
            self.assertRaises(argparse.ArgumentTypeError, words.weight, wrong)

    def test_words_of_a_run(self):
        """A result has them; any other file may be the user's own."""
        with tempfile.TemporaryDirectory() as name:
            path = Path(name, "one.json")
            path.write_text(json.dumps({**WORDS_OF_RUN, "cells": 9}))
            self.assertEqual(words.words_of_run(path), WORDS_OF_RUN)
            for data in (b"[]", b"7", b'{"mine": 1}', b"no json", b"\xff\xfe", b"", b"[" * 100_000):
                path.write_bytes(data)
                self.assertIsNone(words.words_of_run(path), data[:9])
            self.assertIsNone(words.words_of_run(Path(name)))
            self.assertIsNone(words.words_of_run(Path(name, "none")))

    def test_commit(self):
        """Whoever owns the clone, its commit is told."""
        with unittest.mock.patch.dict(os.environ, GIT_TEST_ASSUME_DIFFERENT_OWNER="1"):
            told = commit()
        self.assertRegex(told, "^[0-9a-f]{12}\\+?$" if (TOOLS.parent / ".git").exists() else "^unknown$")

    def test_decimals(self):
        """Loads have no exponent in names of files, and the names that they had."""
        for number, text in ((0.00001, "0.00001"), (1e-9, "0.000000001"), (0.1, "0.1"), (0.95, "0.95"), (1.0, "1"), (0.123456789, "0.123457")):
            self.assertEqual((words.decimal(number), words.share(words.decimal(number))), (text, float(f"{number:g}")))

    def test_lines(self):
        self.assertEqual(read_lines(TOLD.lines()), TOLD)


def runs_of(*means, **words_of_runs):
    """A table of runs with these mean delays, one for each seed."""
    import pandas

    from measure.tables import COLUMNS

    common = {
        "kind": "uniform", "ports": 16, "load": 0.5, "burst": 1, "weight": 0.0, "scheduler": "islip", "rounds": 2, "commit": "abc",
        "slots": 1000, "warm_up": 100, "arrived": 9000, "dropped": 0, "departed": 9000, "cell_slots": 900, "delays": 9900, "longest_delay": 40,
        "peak": 9, "longest_wait": 38, "throughput": 0.5, "mean_waiting": 1.0, "first_half": 2.0, "second_half": 3.0, "batch_half_width": 0.25,
        **dict.fromkeys(("p50", "p90", "p99", "p99_9", "p99_99"), 7), **words_of_runs,
    }
    rows = [{**common, "seed": seed, "mean_delay": mean} for seed, mean in enumerate(means, 1)]
    return pandas.DataFrame(rows, columns=COLUMNS)


@unittest.skipIf(lacks("pandas", "scipy"), lacks("pandas", "scipy"))
class Tables(unittest.TestCase):
    def test_interval_by_hand(self):
        """Means 1, 2, 3: a deviation of 1, and 4.3027 is Student's t of two degrees of freedom for 95 per cent."""
        from measure.tables import points

        (point,) = points(runs_of(1.0, 2.0, 3.0)).to_dict("records")
        self.assertEqual((point["mean_delay"], point["seeds"], point["runs"]), (2.0, "1-3", 3))
        self.assertAlmostEqual(point["half_width"], 4.3027 / math.sqrt(3), places=3)
        self.assertAlmostEqual(point["relative_half_width"], 4.3027 / math.sqrt(3) / 2, places=3)
        self.assertEqual((point["growth"], point["throughput_half_width"]), (0.5, 0.0))
        # Half of the mean is the deviation: t / sqrt(n) is at most 0.1 from 387 on, where t is 1.966.
        self.assertEqual(point["seeds_for_5_percent"], "387")

    def test_one_seed_has_the_interval_of_its_batches(self):
        from measure.tables import points

        (point,) = points(runs_of(2.0)).to_dict("records")
        self.assertEqual((point["half_width"], point["relative_half_width"], point["seeds_for_5_percent"]), (0.25, 0.125, ""))
        (point,) = points(runs_of(2.0, batch_half_width=math.nan)).to_dict("records")
        self.assertTrue(math.isnan(point["half_width"]))

    def test_marks(self):
        """A point grows where its halves differ by more than a twentieth and by more than twice the half width; drops are told."""
        from measure.tables import points

        for halves, width, dropped, mark in (
            ((2.0, 3.0), 0.1, 0, "grows"), ((2.0, 2.09), 0.01, 0, ""), ((2.0, 2.3), 0.2, 0, ""), ((3.0, 2.0), 0.01, 0, ""),
            ((2.0, 2.3), 0.1, 5, "grows,drops"), ((2.0, 2.0), 0.1, 1, "drops"), ((math.nan, math.nan), math.nan, 0, ""),
        ):
            runs = runs_of(2.0, first_half=halves[0], second_half=halves[1], batch_half_width=width, dropped=dropped)
            (point,) = points(runs).to_dict("records")
            self.assertEqual(point["mark"], mark, (halves, width))

    def test_waits_and_drops(self):
        """The longest wait of all seeds stands beside its bound; where nothing was dropped, the share has one of 95 per cent."""
        from measure.tables import dropped_at_most, points

        (point,) = points(runs_of(1.0, 2.0)).to_dict("records")
        self.assertEqual((point["longest_wait"], point["longest_wait_bound"], point["dropped_share"]), (38, "1934", 0))
        self.assertEqual(point["dropped_at_most"], 0.00017)  # 1 - 0.05 ^ (1 / 18000).
        self.assertAlmostEqual((1 - dropped_at_most(0, 9_000)) ** 9_000, 0.05)
        (point,) = points(runs_of(1.0, dropped=90, scheduler="rrm")).to_dict("records")
        self.assertEqual((point["longest_wait_bound"], point["dropped"], point["dropped_share"]), ("", 90, 0.01))
        self.assertTrue(math.isnan(point["dropped_at_most"]))

    def test_runs_are_read(self):
        """The texts of a folder are rows of its table, by the names of their files, beside the results of a trace."""
        from measure.tables import COLUMNS, points, read_runs

        with tempfile.TemporaryDirectory() as name:
            text = TOP / "tests/simulations/unbalanced_one_round/expected/stdout"
            parts = {"kind": "unbalanced", "ports": 4, "load": 0.9, "burst": 1, "weight": 0.5, "scheduler": "islip", "rounds": 1, "seed": 1}
            path = Path(name, simulations.FILE.format(**parts))
            path.parent.mkdir()
            path.write_bytes(text.read_bytes())
            Path(name, "settings.json").write_text('{"commit": "abc"}')
            result = Path(name, "trace-ports-2-load-0.5-seed-1/islip-rounds-2.json")
            result.parent.mkdir()
            result.write_text(json.dumps({**runs_of(2.0, kind="trace", ports=2).iloc[0].to_dict(), "arrived": None, "warm_up": None}, default=int))
            found = read_runs(name)
            self.assertEqual((list(found.columns), found["kind"].tolist()), (COLUMNS, ["trace", "unbalanced"]))
            run, row = simulated.read_simulation(text), found.iloc[1]
            self.assertEqual((row["delays"], row["departed"], row["p99_9"]), (run.delays, run.departed, run.percentiles.p99_9))
            self.assertEqual((row["mean_delay"], row["commit"]), (round(float(run.mean_delay), 4), "abc"))
            self.assertEqual(points(found)["runs"].tolist(), [1, 1])

    def test_formula(self):
        """One more than (N-1)/N * p / (2(1-p)) for uniform traffic below full load, and no value elsewhere."""
        from measure.tables import formula

        self.assertAlmostEqual(formula("uniform", 16, 0.5), 1.46875)
        self.assertAlmostEqual(formula("uniform", 16, 0.9), 5.21875)
        for kind, load in (("bursty", 0.5), ("diagonal", 0.5), ("uniform", 1.0)):
            self.assertTrue(math.isnan(formula(kind, 16, load)))

    def test_tables_are_read_again(self):
        from measure.tables import points, read_table, write_table

        with tempfile.TemporaryDirectory() as name:
            path = Path(name, "points.csv")
            found = points(runs_of(1.0, 2.0))
            write_table(path, found, TOLD)
            self.assertTrue(path.read_text().startswith("# commit abc\n# command tools/sweep --small\n# seeds 1-3\nkind,"))
            read, told = read_table(path)
            self.assertEqual((list(read.columns), told), (list(found.columns), TOLD))
            self.assertEqual(read["mean_delay"].tolist(), [1.5])


@unittest.skipIf(lacks("matplotlib", "pandas"), lacks("matplotlib", "pandas"))
class Figures(unittest.TestCase):
    def test_figures_of_runs(self):
        with tempfile.TemporaryDirectory() as name:
            folder = Path(name)
            reports = [folder / "one.report", folder / "two.report"]
            for report_file in reports:
                report_file.write_text(REPORT.replace("slot 0 used", QUEUES + "slot 0 used"))
                report_file.with_suffix(".journal").write_bytes(JOURNAL)
            (folder / "one.packets.csv").write_text(PACKETS)
            names = ["one.delays", "one.queues", "one.waits", "one.waiting", "one.matched", "one.reference"]
            self.check_drawn(names, folder, reports[:1])
            self.check_drawn(names, folder, [folder / "one.journal"])
            self.check_drawn(["load"], folder, reports)
            drawn = (folder / "figures/one.waiting.svg").read_text()
            self.assertTrue("/one.report" in drawn and "SHA-256" in drawn)

    def test_figures_with_a_packets_file(self):
        """Delays are drawn, and the waiting cells; of queue lines the peaks of the queues, multicast among them."""
        with tempfile.TemporaryDirectory() as name:
            for suffix in ("report", "journal", "packets.csv"):
                Path(name, f"out.{suffix}").write_bytes((DATA / f"all_flags_islip.{suffix}").read_bytes())
            names = [f"out.{figure}" for figure in ("waits", "waiting", "matched", "reference", "delays", "queues")]
            self.check_drawn(names, Path(name), [Path(name, "out.report")])
            drawn = Path(name, "figures/out.queues.svg").read_text()
            for text in ("level 0, unicast", "level 3, multicast", "dropped packets", "1&gt;1:0u", "2&gt;*:3m"):
                self.assertIn(text, drawn)

    def test_matched_pairs_of_many_slots(self):
        """Of few slots each has its dot; of many each number has one wherever it comes."""
        from measure import charts

        for slots, dots in ((7_999, 7_999), (80_000, 4_001)):
            axes = charts.matched_figure("run", [0] + [3] * (slots - 1), 4).axes[0]
            found = list(axes.lines[0].get_xdata())
            self.assertEqual((len(found), found[:2]), (dots, [0, 1]))
            charts.pyplot.close("all")

    def test_nothing_to_draw(self):
        """A figure of no packets has empty axes, and nothing is complained of."""
        from measure import charts

        with tempfile.TemporaryDirectory() as name, warnings.catch_warnings(), redirect_stdout(None):
            warnings.simplefilter("error")
            charts.save(charts.delays_figure("run", {}), name, "delays", TOLD)

    def test_distribution_of_simulations(self):
        """Of texts with `count` lines one figure is drawn, and of others it is told."""
        texts = [TOP / f"tests/simulations/{name}/expected/stdout" for name in ("islip_histogram", "long_delays_ideal", "fifo_histogram")]
        with tempfile.TemporaryDirectory() as name:
            self.check_drawn(["distribution"], Path(name), ["--simulated", *texts])
            drawn = Path(name, "figures/distribution.svg").read_text()
            for told in (
                "4 ports", "islip, 4 rounds, uniform traffic, load 0.9, 400 slots, seed 7", "output-queued (ideal), hot-spot 1 traffic, load 1, 6,000 slots",
                "tiny_tera simulate --scheduler islip --rounds 4 --load 0.9 --histogram 7 400 4", "tools/plot --simulated with 3 texts",
                "tiny_tera simulate --scheduler ideal --pattern hot-spot --weight 1 --load 1 --depth 1048576 --warm-up 5900 --histogram 5 6000 4",
            ):
                self.assertIn(told, drawn)
            self.check_drawn(["distribution"], Path(name), ["--simulated", texts[0]])
            drawn = Path(name, "figures/distribution.svg").read_text()
            for told in ("islip, 4 rounds, uniform traffic, load 0.9, 4 ports, 400 slots, seed 7", "tools/plot --simulated expected/stdout"):
                self.assertIn(told, drawn)
            without = TOP / "tests/simulations/ports_64/expected/stdout"
            told = f"tools/plot: {without}: it has no lines `count`: simulate with --histogram\n"
            self.assertEqual(run(TOOLS / "plot", "--simulated", without), (1, told))
            report = Path(name, "one.report")
            report.write_text(REPORT)
            told = f"tools/plot: {report}: line 1: expected job with 3 fields\n"
            self.assertEqual(run(TOOLS / "plot", "--simulated", report), (1, told))

    def test_file_of_the_user_beside_a_report(self):
        """PREFIX.json is the result of a run of a sweep, or nothing is said of it."""
        with tempfile.TemporaryDirectory() as name:
            report_file = Path(name, "one.report")
            report_file.write_text(REPORT[:REPORT.index("slot 0")] + QUEUES)
            for text, told in (('{"mine": 1}', ""), (json.dumps({**WORDS_OF_RUN, "cells": 9}), "run kind its kind ports its ports load its load")):
                report_file.with_suffix(".json").write_text(text)
                status, said = run(TOOLS / "plot", report_file)
                self.assertEqual((status, "Traceback" in said), (0, False), said)
                drawn = " ".join(Path(name, "one.queues.svg").read_text().split())
                self.assertEqual(("run kind" in drawn, told in drawn), (bool(told), True))

    def test_names_are_plain_text(self):
        """A title has the letters of a name, also those that mark formulas, and of a name that is no text what there is."""
        for folder, stem, shown in (
            ("mine", "$\\foo$", "mine/$\\foo$"), ("x$y", "o$", "x$y/o$"), ("mine", b"\xff", "mine/\N{REPLACEMENT CHARACTER}"),
        ):
            with self.subTest(stem), tempfile.TemporaryDirectory() as name:
                room = Path(name, folder)
                room.mkdir()
                report_file = room / f"{os.fsdecode(stem)}.report"
                report_file.write_text(REPORT[:REPORT.index("slot 0")] + QUEUES)
                status, told = run(TOOLS / "plot", report_file, errors="surrogateescape")
                self.assertEqual((status, report_file.with_suffix(".queues.png").exists()), (0, True), told)
                drawn = report_file.with_suffix(".queues.svg").read_text()
                comments = re.findall("<!-- (.*?) -->", drawn)  # Of each text as it was given.
                self.assertIn(f"{shown}: 3 ports, 2 rounds", comments)
                self.assertNotIn("Oblique", drawn)  # Which is the type of formulas.
                self.assertIn(f"{shown}.report", "".join(drawn.split("<metadata>")[1].split("</metadata>")[0].split("\n")))

    def test_queues_without_packets(self):
        """A report with queue lines alone: the peaks are drawn, of more queues than have names, and of none at all nothing."""
        with tempfile.TemporaryDirectory() as name:
            report_file = Path(name, "one.report")
            bare = REPORT[:REPORT.index("slot 0")]
            names = [f"{card}>{output}:{level}u" for card in range(3) for output in range(3) for level in range(4)]
            queues = "".join(f"queue {queue} packets 1 dropped 0 cells 1 peak 1 slot 0\n" for queue in names)
            report_file.write_text(f"{bare}{queues}deepest 1\n")
            status, told = run(TOOLS / "plot", report_file)
            self.assertEqual((status, sorted(path.name for path in Path(name).glob("*.png"))), (0, ["one.queues.png"]), told)
            report_file.write_text(f"{bare}deepest 0\n")
            status, told = run(TOOLS / "plot", "--to", Path(name, "none"), report_file)
            self.assertEqual((status, Path(name, "none").exists()), (0, False))

    def test_without_pandas(self):
        """What needs no packets file is drawn, and for one the package that is missing is told in one line."""
        with tempfile.TemporaryDirectory() as name:
            Path(name, "pandas.py").write_text("raise ImportError('none', name='pandas')\n")
            report_file, bare = Path(name, "one.report"), {**os.environ, "PYTHONPATH": name}
            report_file.write_text(REPORT)
            status, told = run(TOOLS / "plot", report_file, env=bare)
            self.assertEqual((status, report_file.with_suffix(".matched.png").exists()), (0, True), told)
            Path(name, "one.packets.csv").write_text(PACKETS)
            told = "tools/plot: Python has no pandas (Debian: python3-pandas)\n"
            self.assertEqual(run(TOOLS / "plot", report_file, env=bare), (1, told))

    def test_packets_of_another_run_are_refused(self):
        """The packets file of a run at one pace is not drawn with the report of a run at another, with or without slots."""
        later = PACKETS.replace(",2,5,3\n", ",3,7,4\n").replace(",2,6,4\n", ",3,8,5\n")
        bare = REPORT[:REPORT.index("slot 0")]
        for text, packets in ((REPORT, PACKETS.replace(",2,3,1\n", ",1,2,1\n")), (REPORT, later), (bare, later)):
            with self.subTest(text + packets), tempfile.TemporaryDirectory() as name:
                report_file = Path(name, "one.report")
                report_file.write_text(text)
                Path(name, "one.packets.csv").write_text(packets)
                status, told = run(TOOLS / "plot", report_file)
                self.assertEqual((status, told.count("\n"), list(Path(name).glob("*.png"))), (1, 1, []), told)
                self.assertIn("one.packets.csv: not the packets of", told)

    def test_journal_of_another_run_is_refused(self):
        """Its rounds, its slots and its longest waits are those of the report."""
        for old, new in (("rounds 2", "rounds 1"), ("longest 2", "longest 3")):
            with self.subTest(new), tempfile.TemporaryDirectory() as name:
                report_file = Path(name, "one.report")
                report_file.write_text(REPORT.replace(old, new))
                report_file.with_suffix(".journal").write_bytes(JOURNAL)
                told = f"tools/plot: {name}/one.journal: not the journal of {report_file}\n"
                self.assertEqual(run(TOOLS / "plot", report_file), (1, told))

    def test_faults_are_told(self):
        with tempfile.TemporaryDirectory() as name:
            report_file = Path(name, "one.report")
            cut = report_file.with_suffix(".journal")
            report_file.write_text(REPORT)
            cut.write_bytes(JOURNAL[:-1])
            end = len(JOURNAL) - 1
            told = f"tools/plot: {cut}: bad at {end}; hint: {cut} ends at byte {end}, before its last slot does\n"
            self.assertEqual(run(TOOLS / "plot", report_file), (1, told))
            report_file.write_text(REPORT[:40])
            status, told = run(TOOLS / "plot", report_file)
            self.assertEqual(status, 1)
            self.assertTrue(told.startswith(f"tools/plot: {report_file}: line 5: "), told)
            status, told = run(TOOLS / "plot", "--sweep", report_file)
            self.assertEqual((status, told.count("\n")), (1, 1), told)

    @unittest.skipIf(lacks("scipy"), lacks("scipy"))
    def test_figures_of_a_sweep(self):
        """A table of points has the figures of delay and of throughput, which say where they come from."""
        import pandas

        from measure.tables import points, write_table

        with tempfile.TemporaryDirectory() as name:
            folder = Path(name)
            kinds = [runs_of(1.0, 2.0, kind=kind, load=load) for kind in ("uniform", "bursty", "hot-spot", "trace") for load in (0.2, 0.5)]
            full = [runs_of(9.0, 9.5, load=1.0, ports=ports, throughput=0.8) for ports in (2, 4)]
            full += [runs_of(9.0, 9.5, kind="unbalanced", load=1.0, weight=weight) for weight in (0.1, 0.9)]
            write_table(folder / "points.csv", points(pandas.concat([*kinds, *full])), TOLD)
            self.check_drawn(["delays", "tails", "throughput", "weights"], folder, ["--sweep", folder / "points.csv"])
            for figure in ("delays", "tails", "throughput", "weights"):
                drawn = (folder / f"figures/{figure}.svg").read_text()
                for line in TOLD.lines():
                    self.assertTrue(line in drawn, line)

    @unittest.skipIf(lacks("scipy"), lacks("scipy"))
    def test_lines_and_kinds_are_told_apart(self):
        """Nine lines of three schedulers differ in colour or marker, and each kind has its own figure of throughput."""
        import pandas

        from measure import charts
        from measure.tables import points, write_table

        of_kinds = [runs_of(9.0, kind=kind, load=1.0, ports=ports) for kind in ("uniform", "bursty") for ports in (2, 4)]
        of_lines = [runs_of(9.0, scheduler=name, rounds=rounds) for name in ("islip", "firm", "rrm") for rounds in (1, 2, 4)]
        (axes,) = charts.sweep_figure(points(pandas.concat(of_lines)), 16).axes
        lines = [bar.lines[0] for bar in axes.containers if "round" in bar.get_label()]
        self.assertEqual(len({(line.get_color(), line.get_marker()) for line in lines}), 9)
        with tempfile.TemporaryDirectory() as name:
            write_table(Path(name, "points.csv"), points(pandas.concat(of_kinds)), TOLD)
            self.check_drawn(["throughput_uniform", "throughput_bursty"], Path(name), ["--sweep", Path(name, "points.csv")])

    @unittest.skipIf(lacks("scipy"), lacks("scipy"))
    def test_lines_under_a_figure_end_within_it(self):
        from measure import charts
        from measure.tables import points

        told = Provenance(("abc",), ("tools/sweep --loads " + " ".join(f"0.{load}" for load in range(10, 99)),))
        figure = charts.sweep_figure(points(runs_of(1.0, 2.0)), 16)
        with tempfile.TemporaryDirectory() as name, redirect_stdout(None):
            charts.save(figure, name, "delays", told)
        under = figure.texts[-1].get_window_extent(figure.canvas.get_renderer())
        self.assertLess(under.x1, figure.bbox.x1)

    def check_drawn(self, names, folder, words_of_plot):
        status, told = run(TOOLS / "plot", "--to", folder / "figures", *words_of_plot)
        self.assertEqual(status, 0, told)
        expected = {str(folder / f"figures/{name}.{form}") for name in names for form in ("png", "svg")}
        self.assertEqual(set(told.split()), expected)
        self.assertTrue(all(Path(made).stat().st_size > 1000 for made in expected))
