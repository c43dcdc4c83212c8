#!/usr/bin/python3
"""For sweeps, whose jobs call it: prints the result of one run, its words and the delays of its packets, as JSON.

Delays are those of the packets file: departure less arrival, of each admitted packet at each of its outputs.
"""

import argparse
import json
import sys
from pathlib import Path

sys.path[0] = str(Path(__file__).resolve().parent.parent)  # Modules go by their names from there.

from measure.packets import read_packets  # noqa: E402
from measure.report import read_report  # noqa: E402
from measure.results import measure  # noqa: E402
from measure.words import Words  # noqa: E402


def read_words():
    parser = argparse.ArgumentParser(description=__doc__.split("\n\n")[0])
    parser.add_argument("report", help="the report of the run, with slot lines")
    parser.add_argument("packets", help="its packets file")
    parser.add_argument("--kind", required=True)
    parser.add_argument("--load", type=float, required=True)
    parser.add_argument("--seed", type=int, required=True)
    parser.add_argument("--scheduler", default="islip")
    parser.add_argument("--commit", default="unknown", help="that of the program and the tools")
    return parser.parse_args()


def words_of(words, report):
    """The words of the run, of which its report tells the ports and the rounds."""
    summary = report.summary
    return Words(
        words.kind, summary["ports"], words.load, words.scheduler, summary["rounds"], words.seed, words.commit
    )


def main():
    words = read_words()
    try:
        with open(words.report) as file:
            report = read_report(file.read())
        result = measure(report, read_packets(words.packets))
    except (OSError, ValueError) as fault:
        print(f"run_result: {words.report}: {fault}", file=sys.stderr)
        return 1
    print(json.dumps({**words_of(words, report)._asdict(), **result._asdict()}))
    return 0


if __name__ == "__main__":
    sys.exit(main())
