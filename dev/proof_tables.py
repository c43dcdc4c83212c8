"""What proofs cost, by crate and for the dearest functions: two tables, which are read, written and compared here.

The first is the launcher's, which estimates a build by it. dev/proof_times measures both.
"""

import re
from pathlib import Path

ROOT = Path(__file__).resolve().parent.parent
CRATES = ROOT / "launcher/data/proof_seconds.md"
FUNCTIONS = ROOT / "dev/data/dearest_functions.md"
# How many functions are written down.
DEAREST = 40
# What takes more than so many times its seconds of before, and so many seconds more, grew.
TIMES, MORE = 1.2, 5
# The first function that is checked of a crate has the loading of its libraries in its seconds, whichever it is.
FIRST = "the first, with what it loads"

CRATE_ROW = re.compile(r"^\| `(\w+)` \| ([\d,]+) \| ([\d,]+) \|$", re.M)
FUNCTION_ROW = re.compile(r"^\| `(\w+)` \| `?([^|`]+)`? \| ([\d,]+) \|$", re.M)


def number(text):
    return int(text.replace(",", ""))


def libraries_of(top):
    """The libraries that each crate of crates.txt names."""
    lines = [line.split("#")[0] for line in (top / "crates.txt").read_text(encoding="utf-8").splitlines()]
    return {line.split()[0].rstrip(":"): line.split(":")[1].split() for line in lines if ":" in line}


def read_crates(file=CRATES):
    """For each crate its seconds and its number of functions."""
    text = file.read_text(encoding="utf-8") if file.exists() else ""
    return {name: (number(seconds), number(count)) for name, seconds, count in CRATE_ROW.findall(text)}


def read_functions(file=FUNCTIONS):
    """For each of the dearest functions, as its crate and its name, its seconds."""
    text = file.read_text(encoding="utf-8") if file.exists() else ""
    return {(crate, name): number(seconds) for crate, name, seconds in FUNCTION_ROW.findall(text)}


def by_seconds(rows):
    """The dearest first; those of the same seconds by name."""
    return sorted(rows, key=lambda row: (-row[-1], row))


def crates_text(crates):
    """The table of crates."""
    rows = by_seconds((name, count, round(seconds)) for name, (seconds, count) in crates.items())
    lines = ["| crate | processor seconds | functions |", "|---|---|---|"]
    lines += [f"| `{name}` | {seconds:,} | {count:,} |" for name, count, seconds in rows]
    lines.append(f"| all | {sum(it[2] for it in rows):,} | {sum(it[1] for it in rows):,} |")
    return "\n".join(lines) + "\n"


def functions_text(functions):
    """The table of the dearest functions."""
    rows = by_seconds((crate, name, round(seconds)) for (crate, name), seconds in functions.items())[:DEAREST]
    lines = ["| crate | function | processor seconds |", "|---|---|---|"]
    lines += [f"| `{crate}` | {name if name == FIRST else f'`{name}`'} | {seconds:,} |" for crate, name, seconds in rows]
    return "\n".join(lines) + "\n"


def joined(before, measured, known):
    """The crates of before with those that were measured in their places, of crates that are there."""
    return {name: it for name, it in {**before, **measured}.items() if name in known}


def joined_functions(before, measured, crates, known):
    """The functions of before with those of the measured crates in the place of these crates' own."""
    kept = {key: it for key, it in before.items() if key[0] not in crates}
    return {key: it for key, it in {**kept, **measured}.items() if key[0] in known}


def has_grown(before, now):
    return now > TIMES * before and now > before + MORE


def grown_crates(before, measured):
    """A line for each crate that grew, what grew most first."""
    found = [(seconds - before[name][0], name, seconds) for name, (seconds, _) in measured.items() if name in before]
    grown = [(name, before[name], seconds) for _, name, seconds in sorted(found, reverse=True) if has_grown(before[name][0], seconds)]
    counts = {name: f"{count} functions before, {measured[name][1]} now" for name, (_, count), _ in grown}
    return [f"`{name}`: {was:,} seconds before, {now:,.0f} now; {counts[name]}" for name, (was, _), now in grown]


def grown_functions(before, measured, crates):
    """A line for each function that grew. One that is not among the dearest of before, of a crate that was measured
    then, took at most what the last of these did."""
    least, found = min(before.values(), default=0), []
    for key, now in measured.items():
        was = before.get(key, least if key[0] in crates else None)
        if before and was is not None and has_grown(was, now):
            found.append((now - was, *key, f"{was:,}" if key in before else f"{was:,} or less", now))
    return [f"`{crate}`, {name}: {was} seconds before, {now:,.0f} now" for _, crate, name, was, now in sorted(found, reverse=True)]


def comparison(before, measured):
    """How all measured crates did together, as the machine and what else runs on it change all of them."""
    both = [name for name in measured if name in before]
    was, now = sum(before[it][0] for it in both), sum(measured[it][0] for it in both)
    return f"Crates that were measured before: {len(both)}; {was:,} seconds then, {now:,.0f} now, {now / max(was, 1):.2f} times"


def longest_chain(libraries, crates):
    """The seconds of the longest chain of crates, each of which waits for the one before, and its crates."""
    ends = {}

    def end(name):
        if name not in ends:
            below = max((end(it) for it in libraries[name] if it in libraries), default=(0, []), key=lambda it: it[0])
            ends[name] = below[0] + crates.get(name, (0, 0))[0], [*below[1], name]
        return ends[name]

    return max((end(name) for name in libraries), default=(0, []), key=lambda it: it[0])
