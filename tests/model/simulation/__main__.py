"""The model of a simulation as a program: python3 -m tests.model.simulation simulate .."""

import sys

from .command import run_words

status, output, error = run_words(sys.argv[1:])
for stream, lines in ((sys.stdout, output), (sys.stderr, error)):
    stream.write("".join(f"{line}\n" for line in lines))
sys.exit(status)
