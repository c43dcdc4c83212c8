#!/usr/bin/env python3
"""Runs the outside test vectors through the library, by ctypes or through a program that answers calls in text.

    tests/library/rows.py SHARED_OBJECT            by ctypes
    tests/library/rows.py --through PROGRAM        through examples/c/rows.c

The vectors are those of crates/known_answers/data and crates/known_formats/data. Prints how many calls answered as
stated, or the first that did not, and then exits with 1.
"""

import ctypes
import subprocess
import sys
from pathlib import Path

NONE = 0xFFFFFFFF
CRATES = Path(__file__).resolve().parents[2] / "crates"
VECTORS = CRATES / "known_answers" / "data"
JOURNALS = CRATES / "known_formats" / "data" / "journals.txt"


def u32(numbers):
    return (ctypes.c_uint32 * len(numbers))(*numbers)


def u64(numbers):
    return (ctypes.c_uint64 * len(numbers))(*numbers)


class ByCtypes:
    """The library's functions, each on lists of numbers."""

    def __init__(self, path):
        self.library = ctypes.CDLL(str(path))

    def call(self, name, *arguments):
        return getattr(self, name)(*arguments)

    def islip(self, n, rounds, asks, grant, accept):
        grant, accept, fed, used = u32(grant), u32(accept), u32([0] * n), u32([0] * 3)
        size = ctypes.c_size_t(n)
        status = self.library.tiny_tera_islip_slot(n, rounds, u64(asks), size, grant, size, accept, size, fed, size, used)
        return [status, *fed, *used, *grant, *accept]

    def decide(self, n, rounds, slot, rows, pointers, function="tiny_tera_decide"):
        pointers, feeds, used, size = u32(pointers), u32([0] * 3 * n), u32([0] * 3), ctypes.c_size_t(n)
        status = getattr(self.library, function)(n, rounds, slot, u64(rows), size, pointers, feeds, size, used)
        return [status, *feeds, *used, *pointers]

    def firm(self, *arguments):
        return self.decide(*arguments, function="tiny_tera_decide_firm")

    def rrm(self, *arguments):
        return self.decide(*arguments, function="tiny_tera_decide_rrm")

    def many(self, n, rounds, slot, count, rows, pointers, function="tiny_tera_decide_many"):
        pointers, feeds, used, size = u32(pointers), u32([0] * 3 * n * count), u32([0] * 3 * count), ctypes.c_size_t(n * count)
        call = getattr(self.library, function)
        status = call(n, rounds, slot, u64(rows), size, pointers, feeds, size, used, ctypes.c_size_t(count))
        return [status, *feeds, *used, *pointers]

    def many_firm(self, *arguments):
        return self.many(*arguments, function="tiny_tera_decide_many_firm")

    def many_rrm(self, *arguments):
        return self.many(*arguments, function="tiny_tera_decide_many_rrm")

    def maximal(self, n, rows, feeds):
        answer, size = u32([2]), ctypes.c_size_t(n)
        return [self.library.tiny_tera_is_maximal(n, u64(rows), size, u32(feeds), size, answer), *answer]

    def waits(self, n, rows, feeds, waits, longest):
        waits, longest, size = u32(waits), u32(longest), ctypes.c_size_t(n)
        sizes = ctypes.c_size_t(len(waits)), ctypes.c_size_t(len(longest))
        status = self.library.tiny_tera_note_waits(n, u64(rows), size, u32(feeds), size, waits, sizes[0], longest, sizes[1])
        return [status, *waits, *longest]

    def journal(self, data):
        verdict = u32([0] * 8)
        held = (ctypes.c_uint8 * (len(data) + 1))(*data)
        return [self.library.tiny_tera_check_journal(held, ctypes.c_size_t(len(data)), verdict), *verdict]


class ByProgram:
    """The same through a program that answers each line with one."""

    def __init__(self, path):
        self.program = subprocess.Popen([path], stdin=subprocess.PIPE, stdout=subprocess.PIPE, text=True)

    def call(self, name, *arguments):
        if name == "journal":
            arguments = (len(arguments[0]), *arguments)
        words = [name]
        for argument in arguments:
            words += [str(argument)] if isinstance(argument, int) else map(str, argument)
        self.program.stdin.write(" ".join(words) + "\n")
        self.program.stdin.flush()
        return [int(word) for word in self.program.stdout.readline().split()]


def numbers(text):
    return [int(word, 0) for word in text.split(",")]


def rows_of(text):
    """The eight sets of each input, parted by `;`."""
    rows = []
    for row in text.split(";"):
        sets = [0] * 8
        for part in [] if row == "." else row.split("+"):
            sets[4 * (part[0] == "m") + int(part[1])] = int(part[3:], 0)
        rows += sets
    return rows


def feeds_of(text):
    """The three words for each output, parted by `,`."""
    feeds = []
    for fed in text.split(","):
        if fed == "-":
            feeds += [NONE] * 3
        else:
            port, level = fed[:-1].split(":")
            feeds += [int(port), int(level), int(fed[-1] == "m")]
    return feeds


def pointers_of(grant, accept, shared):
    words = [0] * 512
    for at, text in (0, grant), (256, accept):
        for level, places in enumerate(text.split("/")):
            for port, place in enumerate(numbers(places)):
                words[at + 64 * level + port] = place
    return words + numbers(shared)


def blocks(name):
    """The blocks of a file: the words of each line, parted by lines without any."""
    block = []
    for line in [*(VECTORS / name).read_text(encoding="utf-8").splitlines(), ""]:
        if line.startswith("#"):
            continue
        if line.strip():
            block.append(line.split())
        elif block:
            yield block
            block = []


def islip_rows(ask, name):
    for block in blocks(name):
        for words in block:
            case, n, rounds, asks, grant, accept, _, fed, *rest = words
            after = [NONE if it == "-" else int(it) for it in fed.split(",")]
            after += [int(it) for it in rest[:3]] + numbers(rest[3]) + numbers(rest[4])
            yield case, [0, *after], ask("islip", int(n), int(rounds), numbers(asks), numbers(grant), numbers(accept))


def decide_rows(ask, name):
    for block in blocks(name):
        case = {words[0]: " ".join(words[1:]) for words in block}
        n, rows, feeds = int(case["n"]), rows_of(case["rows"]), feeds_of(case["match"])
        before = pointers_of(case["grant"], case["accept"], case["shared"])
        after = pointers_of(case["grant_after"], case["accept_after"], case["shared_after"])
        wanted = [0, *feeds, *map(int, case["numbers"].split()), *after]
        yield case["case"], wanted, ask("decide", n, int(case["rounds"]), int(case["slot"]), rows, before)
        yield case["case"], [0, int(case["maximal"] == "yes")], ask("maximal", n, rows, feeds)


# By each call that decides a slot the one that decides many.
MANY = {"decide": "many", "firm": "many_firm", "rrm": "many_rrm"}


def in_one_call(ask, call, n, rounds, posted, pointers):
    """What one call for slots 0, 1 and so on answers: for each the status, feeds and used, and then the pointers after all."""
    count = len(posted)
    status, *words = ask(MANY[call], n, rounds, 0, count, [word for rows in posted for word in rows], pointers)
    used = words[3 * n * count : 3 * (n + 1) * count]
    slots = [[status, *words[3 * n * s : 3 * n * (s + 1)], *used[3 * s : 3 * s + 3]] for s in range(count)]
    return slots, words[3 * (n + 1) * count :]


def schedule_rows(ask, name):
    for block in blocks(name):
        n, rounds, pointers = int(block[1][1]), int(block[2][1]), [0] * 516
        wanted = [[0, *feeds_of(match), *map(int, rest[:3])] for _, _, _, match, *rest in block[3:]]
        slots, after = in_one_call(ask, "decide", n, rounds, [rows_of(rows) for _, rows, *_ in block[3:]], pointers)
        yield f"{block[0][1]}, in one call", [*wanted, numbers(block[-1][-1])], [*slots, after[-4:]]
        for slot, (_, rows, _, match, *rest) in enumerate(block[3:]):
            answer = ask("decide", n, rounds, slot, rows_of(rows), pointers)
            pointers = answer[-516:]
            wanted = [0, *feeds_of(match), *map(int, rest[:3]), *numbers(rest[3])]
            yield f"{block[0][1]}, slot {slot}", wanted, answer[: 3 * n + 4] + answer[-4:]


def wait_rows(ask, name):
    for block in blocks(name):
        n = int(block[1][1])
        waits, longest = [0] * 256 * n, [0] * 4
        for slot, (_, rows, match, _, *wanted) in enumerate(block[2:]):
            answer = ask("waits", n, rows_of(rows), feeds_of(match), waits, longest)
            waits, longest = answer[1:-4], answer[-4:]
            yield f"{block[0][1]}, slot {slot}", [0, *map(int, wanted)], [answer[0], *longest]


def longest_rows(ask, name):
    """Input 0 is served at output 0 in the last slot alone."""
    call = "firm" if "firm" in name else "decide"
    for block in blocks(name):
        n, rounds, slots = map(int, block[0][1:])
        pointers = [0] * 516
        pointers[0] = int(block[1][1])
        pointers[256 : 256 + n] = map(int, block[1][2:])
        posted = [[word for it in words[1:] for word in (int(it, 0), *[0] * 7)] for words in block[2:]]
        found, _ = in_one_call(ask, call, n, rounds, posted, pointers)
        served = [[0, slot == slots - 1] for slot in range(slots)]
        yield f"{n} ports, {rounds} rounds, in one call", served, [[words[0], words[1] == 0] for words in found]
        for slot, rows in enumerate(posted):
            answer = ask(call, n, rounds, slot, rows, pointers)
            pointers = answer[-516:]
            yield f"{n} ports, {rounds} rounds, slot {slot}", [0, slot == slots - 1], [answer[0], answer[1] == 0]


def rrm_rows(ask):
    """Two ports with all queues full, one round: the two grant pointers go round together, one pair in each slot."""
    rows, pointers, wanted = [3, *[0] * 7] * 2, [0] * 516, []
    for slot, (output, port, accepts) in enumerate([(0, 0, (1, 0)), (0, 1, (1, 1)), (1, 0, (0, 1)), (1, 1, (0, 0)), (0, 0, (1, 0))]):
        feeds, at = [NONE] * 6, (slot + 1) % 2
        feeds[3 * output : 3 * output + 3] = [port, 0, 0]
        after = [0] * 516
        after[:2], after[256:258] = (at, at), accepts
        wanted.append([0, *feeds, 1, 1, 1])
        answer = ask("rrm", 2, 1, slot, rows, pointers)
        pointers = answer[-516:]
        yield f"slot {slot}", [*wanted[-1], *after], answer
    slots, found = in_one_call(ask, "rrm", 2, 1, [rows] * len(wanted), [0] * 516)
    yield "in one call", [*wanted, after], [*slots, found]


def verdict_of(text):
    """The words of an answer in the text of the vectors."""
    words = text[2:].replace(",", " ").split()
    if words[0] == "yes":
        return [0, 0, int(words[1]), NONE, NONE, *map(int, words[4:])]
    if words[0] == "bad":
        return [0, 2, int(words[2]), NONE, NONE, 0, 0, 0, 0]
    reason = " ".join(words[3:])
    for number, (start, has_port) in enumerate(
        (("after end", False), ("more of card", True), ("keeps of card", True), ("output", True), ("no end", False))
    ):
        if reason.startswith(start):
            return [0, 1, int(words[2]), number, int(words[-1]) if has_port else NONE, 0, 0, 0, 0]
    raise ValueError(text)


def journal_rows(ask):
    data = b""
    for number, line in enumerate(JOURNALS.read_text(encoding="utf-8").splitlines(), 1):
        if line.startswith("> "):
            yield f"line {number}", verdict_of(line), ask("journal", list(data))
        elif line and not line.startswith("#"):
            data = b"" if line == "-" else bytes.fromhex(line)


FILES = {
    "islip_one_round.txt": islip_rows,
    "islip_rounds.txt": islip_rows,
    "decide_random.txt": decide_rows,
    "decide_many_ports.txt": decide_rows,
    "decide_refuses.txt": decide_rows,
    "schedules.txt": schedule_rows,
    "waits.txt": wait_rows,
    "longest_waits.txt": longest_rows,
    "longest_waits_firm.txt": longest_rows,
}


def all_rows(ask):
    for name, rows in FILES.items():
        for row in rows(ask, name):
            yield name, *row
    for row in rrm_rows(ask):
        yield "round-robin matching", *row
    for row in journal_rows(ask):
        yield JOURNALS.name, *row


def main():
    if len(sys.argv) == 3 and sys.argv[1] == "--through":
        how, ask = "through C", ByProgram(sys.argv[2]).call
    elif len(sys.argv) == 2:
        how, ask = "by ctypes", ByCtypes(Path(sys.argv[1]).resolve()).call
    else:
        sys.exit(__doc__)
    counts = {}
    for name, case, wanted, answer in all_rows(ask):
        if wanted != answer:
            print(f"tests/library/rows.py, {how}: {name}, {case}: {wanted} was stated, {answer} answered")
            return 1
        counts[name] = counts.get(name, 0) + 1
    print(f"tests/library/rows.py, {how}: {sum(counts.values())} calls answered as stated")
    return 0


if __name__ == "__main__":
    sys.exit(main())
