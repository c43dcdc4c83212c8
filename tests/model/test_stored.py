"""Tests that what is stored is made of its questions alone: a wrong answer in it is seen, whichever it is."""

import re
import unittest

from .stored.jobs import EXPECTED, Job, expected_of, files_of, read_job
from .stored.kept import JOBS, OTHERS, ROWS, SLOW, TOP, all_kept, row_files, row_name

LINES = 180  # Of a file of rows that takes the model some seconds; its rows are single lines.
# What is an answer in a line of rows, by how the line begins or what stands in it.
ANSWERS = (
    (r" -> .*$", " -> x"), (r"(^| )=> .*$", r"\1=> x"), (r"^> .*$", "> x"),
    (r"^(match|numbers|maximal|grant_after|accept_after|shared_after|refused|answer) .*$", r"\1 x"),
    (r"^(route \S+) .*$", r"\1 x"), (r"^(cells_of \d+) .*$", r"\1 x"),
    (r"^((?:dist|next|pick|rotate|lowest) .*) \S+$", r"\1 x"),
    (r"^(\S+ (?:-|(?:[0-9a-f]{2})+)) (?:ok|[a-z]+_[a-z]+) .*$", r"\1 x"),
    (r"^(\S+ (?:1|101)) (?:-|\d+\.\d+\.\d+\.\d+) (\S+)$", r"\1 x \2"),
    (r"^(?:fit|no_fit) ", "x_fit "), (r"^(case \d+ [12]) \d+$", r"\1 x"),
)


def spoiled(text):
    """A text of rows with all its answers spoiled, and how many there were."""
    count, lines = 0, []
    for line in text.split("\n"):
        found = next(((it, new) for it, new in ANSWERS if re.search(it, line)), None)
        if found is not None and not line.startswith("#"):
            count, line = count + 1, re.sub(*found, line)
        lines.append(line.replace("x_fit", "fit"))
    return "\n".join(lines), count


class Stored(unittest.TestCase):
    def test_each_file_of_rows_has_a_maker(self):
        names = {row_name(file) for file in row_files()}
        self.assertLessEqual(set(OTHERS), names)
        self.assertEqual({file.stem for file in row_files() if row_name(file) not in OTHERS}, set(ROWS))
        self.assertGreater(len(names), 30)

    def test_answers_of_rows_are_made_of_their_questions(self):
        for file in row_files():
            if row_name(file) not in OTHERS:
                with self.subTest(file=row_name(file)):
                    self.check_answers(file)

    def check_answers(self, file):
        text = file.read_text()
        if row_name(file) in SLOW:
            text = "\n".join(text.split("\n")[:LINES])
        wrong, count = spoiled(text)
        self.assertGreater(count, 4)
        self.assertEqual(ROWS[file.stem](wrong), text)

    def test_a_job_is_made_of_its_folder_without_what_is_expected(self):
        for name in ("one_packet_crosses", "check_no_end", "outputs_replace_inputs", "output_cannot_begin"):
            folder = TOP / JOBS / name
            job = read_job(folder)
            self.assertFalse(any(path.startswith(EXPECTED) for path in job.files))
            self.assertEqual(expected_of(job), files_of(folder / EXPECTED))

    def test_a_changed_job_is_made_otherwise(self):
        job = read_job(TOP / JOBS / "one_packet_crosses")
        self.assertEqual(expected_of(Job(["gen", "1"], {}, ""))["status"], b"2\n")
        self.assertNotEqual(expected_of(job._replace(words=[*job.words, "--slots"])), expected_of(job))

    def test_names(self):
        kept = all_kept()
        self.assertEqual(len({it.name for it in kept}), len(kept))
        self.assertTrue(any(it.is_slow for it in kept) and any(it.name == "known_answers/arrivals" for it in kept))
