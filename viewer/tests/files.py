"""Files for the test of the viewer: journals and reports of runs whose outcome is plain, and the
vector files of the repository."""

import pathlib
import struct

from tests.disk.files import RAW_IP, header, packet, record

ROOT = pathlib.Path(__file__).resolve().parents[2]
VECTORS = ROOT / "crates/known_answers/data"
# Files of runs under each of the three schedulers.
DATA = ROOT / "viewer/tests/data"
FREE = b"\xff\x00"

# The heavy run: so many slots of 64 ports, of which so many inputs send in each slot.
HEAVY_PORTS = 64
HEAVY_SLOTS = 100_000
HEAVY_SENDERS = 12
# Of late_rrm(): the first slot whose match is not that of iSLIP.
LATE_SLOT = 20_001


def journal_bytes(ports, rounds, slots):
    """A journal file: each slot is its rows ({"u0": set of outputs as a mask, ..}), its marks `more`
    and for each output None or (input, level, kind)."""
    header = b"TTJ1" + struct.pack(">BBHI", ports, rounds, 0, len(slots))
    return header + b"".join(slot_bytes(slot) for slot in slots)


def slot_bytes(slot):
    rows, more, match = slot
    parts = [post_bytes(row, is_more) for row, is_more in zip(rows, more)]
    parts += [FREE if pair is None else bytes([pair[0], 2 * pair[1] + pair[2]]) for pair in match]
    return b"".join(parts)


def post_bytes(row, is_more):
    names = [f"{kind}{level}" for kind in "um" for level in range(4)]
    marks = sum(1 << bit for bit, name in enumerate(names) if row.get(name))
    return bytes([marks, is_more]) + b"".join(struct.pack(">Q", row[name]) for name in names if row.get(name))


def read_rows(text):
    """Rows as the vector files write them."""
    rows = []
    for row in text.split(";"):
        parts = [] if row == "." else [part.split("=") for part in row.split("+")]
        rows.append({name: int(mask, 16) for name, mask in parts})
    return rows


def read_match(text):
    return [None if pair == "-" else (int(pair.split(":")[0]), int(pair[-2]), "um".index(pair[-1])) for pair in text.split(",")]


def read_cases(name):
    """The cases of a vector file: for each the lines as pairs of the first word and the rest."""
    for block in (VECTORS / name).read_text().split("\n\n"):
        lines = [line.split(" ", 1) for line in block.splitlines() if line and not line.startswith("#")]
        if lines:
            yield lines


def heavy_journal():
    """A run whose matches are plain: in each slot inputs 1 to HEAVY_SENDERS ask one output each, no two
    the same one, and input 1 always output 0. Input 0 also asks output 0, at level 3, and so waits
    until the last slot but one."""
    nobody = [None] * (HEAVY_PORTS - 1)
    served = ([{"u3": 1}] + [{}] * (HEAVY_PORTS - 1), [1] * HEAVY_PORTS, [(0, 3, 0)] + nobody)
    last = ([{}] * HEAVY_PORTS, [0] * HEAVY_PORTS, [None] + nobody)
    turns = [slot_bytes(heavy_slot(turn)) for turn in range(4)]
    header = b"TTJ1" + struct.pack(">BBHI", HEAVY_PORTS, 4, 0, HEAVY_SLOTS)
    waiting = b"".join(turns[slot % 4] for slot in range(HEAVY_SLOTS - 2))
    return header + waiting + slot_bytes(served) + slot_bytes(last)


def heavy_slot(turn):
    rows = [{"u3": 1}] + [{} for _ in range(HEAVY_PORTS - 1)]
    match = [None] * HEAVY_PORTS
    for sender in range(1, HEAVY_SENDERS + 1):
        output = 0 if sender == 1 else 5 * (sender - 1) + turn
        rows[sender] = {"u0": 1 << output}
        match[output] = (sender, 0, 0)
    return rows, [1] * HEAVY_PORTS, match


def full_load_journal(ports, cells, matched):
    """Each queue of level 0 has so many cells from slot 0 on; `matched` has the pairs (input, output) of each
    slot. A queue is posted until its last cell is served, and a slot in which nothing is posted ends the run."""
    left = {(source, output): cells for source in range(ports) for output in range(ports)}
    slots = []
    for pairs in matched + [[]]:
        masks = [sum(1 << output for output in range(ports) if left[source, output]) for source in range(ports)]
        match = [None] * ports
        for source, output in pairs:
            match[output] = (source, 0, 0)
            left[source, output] -= 1
        slots.append(([{"u0": mask} if mask else {} for mask in masks], [int(mask > 0) for mask in masks], match))
    return journal_bytes(ports, 1, slots)


def full_load_islip(ports=4, cells=4):
    """Full load under iSLIP, one round. In slot t the pairs have input + output = t, t - ports, t - 2 * ports and so
    on, as in slot 0 output 0 alone leaves input 0, and each output is one slot behind the one before it from then
    on: all outputs are matched from slot ports - 1 on. A pair's last cell goes in round `cells` of its turns."""
    last = 2 * (ports - 1) + (cells - 1) * ports
    matched = [[] for _ in range(last + 1)]
    for source in range(ports):
        for output in range(ports):
            for turn in range(cells):
                matched[source + output + turn * ports].append((source, output))
    return full_load_journal(ports, cells, matched)


def full_load_rrm(ports=4, cells=4):
    """Full load under RRM, one round. All outputs grant the same input, input t mod ports in slot t, which takes
    the outputs in turn: one pair in each slot."""
    return full_load_journal(ports, cells, [[(slot % ports, slot // ports % ports)] for slot in range(cells * ports * ports)])


def late_rrm():
    """Two ports with nothing to send for LATE_SLOT - 1 slots, and then full load under RRM: input 0 gets output 0 first under
    each scheduler, and in the next slot RRM has one pair and iSLIP two."""
    idle = slot_bytes(([{}] * 2, [1] * 2, [None] * 2))
    load = full_load_rrm(2, 3)
    slots = LATE_SLOT - 1 + struct.unpack(">I", load[8:12])[0]
    return load[:8] + struct.pack(">I", slots) + idle * (LATE_SLOT - 1) + load[12:]


def one_slot_journal():
    """Two ports of which none sends: one slot, 20 bytes."""
    return bytes.fromhex("54544a31020400000000000100000000ff00ff00")


def steps_journal(rounds=2):
    """Three ports, two rounds or one, all pointers at 0: in slot 0 input 0 has a multicast head for outputs 1 and
    2, and input 1 asks outputs 0 and 2. With two rounds the head gets output 2 in the second; with one it gets
    it in slot 1, which prefers multicast. Input 1 gets output 2 in the slot after the head is complete."""
    nobody = [None] * 3
    first = [{"m0": 6}, {"u0": 5}, {}]
    head_waits = ([{"m0": 4}, {"u0": 4}, {}], [1, 1, 0], [None, None, (0, 0, 1)])
    last = ([{}, {"u0": 4}, {}], [0, 1, 0], [None, None, (1, 0, 0)])
    end = ([{}] * 3, [0] * 3, nobody)
    both = [(first, [1, 1, 0], [(1, 0, 0), (0, 0, 1), (0, 0, 1)]), last, end]
    one = [(first, [1, 1, 0], [(1, 0, 0), (0, 0, 1), None]), head_waits, last, end]
    return journal_bytes(3, rounds, both if rounds > 1 else one)


def turning_journal(ports, slots=8):
    """In slot t each input asks the t-th output after its own, at one of the four levels, and gets it."""
    made = []
    for slot in range(slots):
        to = [(source + slot) % ports for source in range(ports)]
        match = [None] * ports
        for source in range(ports):
            match[to[source]] = (source, source % 4, 0)
        made.append(([{f"u{source % 4}": 1 << to[source]} for source in range(ports)], [1] * ports, match))
    return journal_bytes(ports, 4, made + [([{}] * ports, [0] * ports, [None] * ports)])


def write_job(folder, ports, packets):
    """Writes a table and captures of so many ports, with packets of one to four cells: three of four are unicast,
    of all levels, the fourth goes to eight outputs. Gives the words of the job."""
    lines = [f"10.0.{port}.0/24 {port} {port % 4}\n" for port in range(ports)]
    lines += [f"10.1.{group}.0/24 {','.join(str(port) for port in range(group % 8, ports, 8))} {group % 4}\n" for group in range(16)]
    pathlib.Path(folder, "table").write_text("".join(lines))
    names = [f"in.{port}" for port in range(ports)]
    for source, name in enumerate(names):
        made = []
        for number in range(packets):
            turn = 7 * source + 11 * number
            address = (10, 1, turn % 16, 1) if number % 4 == 3 else (10, 0, (turn * turn + number) % ports, 1)
            made.append(record(packet((20, 60, 100, 200)[turn % 4], address)))
        pathlib.Path(folder, name).write_bytes(header(RAW_IP) + b"".join(made))
    return ["table", "out", *names]


def two_inputs_report():
    """The report of examples/two_inputs with slot lines, as its README's worked example tells the run."""
    pairs = {2: 0, 3: 1, 4: 0, 5: 1, 6: 0, 7: 1, 8: 0, 9: 0}
    lines = (ROOT / "examples/two_inputs/expected/out.report").read_text().splitlines()[:14]
    for slot in range(11):
        fed = slot in pairs
        lines.append(f"slot {slot} used {int(fed)} first {int(fed)}" + (f" {pairs[slot]}>0:0u" if fed else ""))
    return "".join(f"{line}\n" for line in lines).encode()


def reference_lines():
    """Lines of the output-queued reference for a report of two ports."""
    return b"reference 0 ends 9 runs 10 lead 1 extra 3\nreference 1 ends 0 runs 0 lead 0 extra 0\n"


def two_inputs_journal():
    """The same run as a journal: both ask output 0 from slot 2 on, and take turns."""
    pairs = {2: 0, 3: 1, 4: 0, 5: 1, 6: 0, 7: 1, 8: 0, 9: 0}
    asks = [range(2, 10), range(2, 8)]
    slots = []
    for slot in range(11):
        rows = [{"u0": 1} if slot in asked else {} for asked in asks]
        more = [int(slot < asked.stop) for asked in asks]
        slots.append((rows, more, [(pairs[slot], 0, 0) if slot in pairs else None, None]))
    return journal_bytes(2, 4, slots)


def change_match(data, slot, pair):
    """The journal of two_inputs_journal() with another pair for output 0 of a slot."""
    at = 12
    for past in range(slot + 1):
        for _ in range(2):
            at += 2 + 8 * bin(data[at]).count("1")
        if past < slot:
            at += 4
    return data[:at] + pair + data[at + 2:]
