"""Tests of the rotating choice, of what the model is made of, and of its size."""

import ast
import random
import sys
import unittest
from pathlib import Path

from . import ports

HERE = Path(__file__).resolve().parent
# What Python 3.8, which does not say itself, has and the model may import.
LIBRARY = set(getattr(sys, "stdlib_module_names", ())) or {
    "__future__", "argparse", "ast", "collections", "contextlib", "dataclasses", "functools", "importlib", "io",
    "itertools", "math", "os", "pathlib", "random", "re", "subprocess", "sys", "tempfile", "typing", "unittest",
}


def imported(tree):
    """The names of the modules that a file imports from elsewhere; those of its own package begin with a dot."""
    for node in ast.walk(tree):
        if isinstance(node, ast.Import):
            yield from (alias.name for alias in node.names)
        elif isinstance(node, ast.ImportFrom):
            yield "." * node.level + (node.module or "")


class Independence(unittest.TestCase):
    def test_only_the_standard_library_is_imported(self):
        """Nothing of the launcher, the tools or the package for Python; each relative name stays in the model."""
        files = sorted(HERE.rglob("*.py"))
        self.assertGreater(len(files), 20)
        for file in files:
            depth = len(file.relative_to(HERE).parts)
            for name in imported(ast.parse(file.read_text())):
                with self.subTest(file=file.name, name=name):
                    dots = len(name) - len(name.lstrip("."))
                    self.assertTrue(1 <= dots <= depth or name.split(".")[0] in LIBRARY)


class RotatingChoice(unittest.TestCase):
    def test_first_from(self):
        self.assertEqual(ports.first_from(5, 4, {1, 3}), 1)
        self.assertEqual(ports.first_from(5, 1, {1, 3}), 1)
        self.assertEqual(ports.first_from(64, 63, {0, 62}), 0)
        self.assertIsNone(ports.first_from(64, 5, ()))
        self.assertEqual((ports.distance(64, 63, 0), ports.distance(64, 63, 62)), (1, 63))

    def test_rotated(self):
        self.assertEqual(ports.rotated(5, 0b10010, 3), 0b01010)
        self.assertEqual(ports.rotated(1, 1, 0), 1)
        self.assertEqual(ports.rotated(64, 1, 1), 1 << 63)
        self.assertIsNone(ports.lowest(0))

    def test_choice_is_the_lowest_of_the_rotated_mask(self):
        rng = random.Random(12)
        for _ in range(300):
            count = rng.randint(1, 64)
            mask, pointer = rng.getrandbits(count), rng.randrange(count)
            low = ports.lowest(ports.rotated(count, mask, pointer))
            chosen = ports.first_from(count, pointer, ports.ports_of(mask))
            self.assertEqual(chosen, None if low is None else (low + pointer) % count)
            self.assertEqual(ports.mask_of(ports.ports_of(mask)), mask)
