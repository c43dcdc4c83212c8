"""Tests of the playground's scripts under node: links, slots back, requests as text, other settings, random requests."""

import dataclasses
import json
import pathlib
import shutil
import struct
import subprocess
import tempfile

from tests.model.simulation.runs import simulate
from tests.model.simulation.sources import Source, Stream
from tests.model.simulation.words import PATTERNS, WEIGHED, Job

from . import files
from .browser import expect

STARVING = files.ROOT / "examples/starving/expected"
SCRIPT = files.ROOT / "viewer/tests/playground_node.js"
FREE = 255
MOST_LETTERS = 8000
# Behind so many slots the sums of made traffic are compared.
COUNTED_SLOTS = (1, 10, 100, 1000)


def ask(asks, **given):
    """What the scripts answer; Failed where there is no node."""
    ran = subprocess.run([shutil.which("node"), SCRIPT], input=json.dumps({"asks": asks, **given}), text=True, capture_output=True)
    expect(ran.returncode == 0, ran.stderr)
    return json.loads(ran.stdout)


def no_node():
    return "skipped, there is no node" if shutil.which("node") is None else None


def test_playground_links(_):
    """A link holds the whole state, and each change and each cut of one is refused; one that is too long is not made."""
    if no_node():
        return no_node()
    found = ask("links", count=200)
    expect(found["wrong"] == 0, f"{found['wrong']} links give another state")
    for seed in (3, 4):
        damage = ask("damage", seed=seed)
        expect(damage["taken"] == [], f"damaged links that are taken: {damage['taken'][:3]}")
    faults = ask("linkFaults", links=["#slot=3", "#" + "a" * 8000, "#ports=2&sum=00000000"])
    expect(faults == ["the link is damaged: its end is missing", "the link is damaged: it has more than 8000 letters",
                      "the link is damaged: its sum is another"], f"{faults}")
    lengths = ask("longLinks", slots=8)
    expect(0 < lengths[0] < 1000 and 0 < lengths[5] <= MOST_LETTERS and lengths[7] == 0, f"{lengths}")
    return f"200 links of {found['slots']} slots"


def test_playground_back(_):
    """Slots back lead to the states of before, and the same clicks on again to the same slots."""
    return no_node() or expect(ask("back", count=200) == [], "states that differ")


def test_playground_anew(_):
    """Another scheduler or other rounds: all slots are decided anew, with the same requests."""
    return no_node() or expect(ask("anew", count=200) == [], "playgrounds that differ")


def test_playground_random(_):
    """A seed gives the same requests again."""
    if no_node():
        return no_node()
    found = ask("random", seeds=list(range(50)))
    return expect(found == {"same": True, "kinds": 50, "none": 0, "all": True}, f"{found}")


def slots_of(data):
    """The slots of a journal of unicast of level 0: for each the outputs that each input asks, and the input of each output."""
    ports, rounds = data[4], data[5]
    at = 12
    slots = []
    for _ in range(struct.unpack(">I", data[8:12])[0]):
        asked = []
        for _ in range(ports):
            sets = data[at]
            mask = struct.unpack(">Q", data[at + 2:at + 10])[0] if sets else 0
            expect(sets in (0, 1), f"sets {sets}")
            asked.append([output for output in range(ports) if mask >> output & 1])
            at += 2 + 8 * sets
        slots.append((asked, list(data[at:at + 2 * ports:2])))
        at += 2 * ports
    return ports, rounds, slots


def text_of(ports, rounds, slots, with_matches=True):
    """The text of docs/FORMATS.md of such a journal."""
    lines = [f"journal ports {ports} rounds {rounds}"]
    for slot, (asked, match) in enumerate(slots):
        words = [f"{source}>{','.join(map(str, outputs))}:0u" for source, outputs in enumerate(asked) if outputs]
        pairs = [f"{source}>{output}:0u" for output, source in enumerate(match) if source != FREE]
        lines.append(" ".join(["slot", str(slot), "requests", *words] + (["matches", *pairs] if with_matches else [])))
    return "".join(f"{line}\n" for line in lines)


def test_playground_slots(_):
    """The requests of journals of an independent model, as text: the playground makes their matches, and writes the same text."""
    if no_node():
        return no_node()
    count = 0
    for rule in ("islip", "rrm"):
        ports, rounds, slots = slots_of((STARVING / f"{rule}.journal").read_bytes())
        text = text_of(ports, rounds, slots)
        found = ask("decided", text=text, settings={"rule": rule}, slots=len(slots))
        expect(found["matches"] == [match for _, match in slots] and found["unlike"] == -1, f"{rule}: {found['matches']}")
        expect(found["text"] == text, f"{rule}: {found['text']}")
        waits = [wait[0] for wait in found["waits"]]
        expect(waits[:27] == ([*range(26), 0] if rule == "rrm" else [0, 1, 2] + [0] * 24), f"{rule}: the waits of 0>0 are {waits}")
        other = ask("decided", text=text, settings={"rule": "firm" if rule == "rrm" else "rrm"}, slots=len(slots))
        expect(other["unlike"] == next(slot for slot, made in enumerate(other["matches"]) if made != slots[slot][1]), f"{other['unlike']}")
        count += len(slots)
    return f"{count} slots"


def test_playground_journal(_):
    """The text of slots that the playground writes makes the journal of an independent model, byte for byte."""
    if no_node():
        return no_node()
    for rule in ("islip", "rrm"):
        journal = STARVING / f"{rule}.journal"
        slots = slots_of(journal.read_bytes())
        found = ask("decided", text=text_of(*slots), settings={"rule": rule}, slots=len(slots[2]))
        with tempfile.TemporaryDirectory() as folder:
            made = pathlib.Path(folder, "made.journal")
            ran = subprocess.run([files.ROOT / "tools/journal", "make", "-", made], input=found["text"], text=True, capture_output=True)
            if "No module named" in ran.stderr:
                return "skipped, a package for Python that tools/journal needs is not there"
            expect(ran.returncode == 0 and made.read_bytes() == journal.read_bytes(), f"{rule}: {ran.stderr}")
    return None


def test_playground_pointers(_):
    """Schedules of the vector files with pointers of their own: the request waits for as many slots as it can."""
    if no_node():
        return no_node()
    cases, names = [], []
    for name, rule in (("longest_waits.txt", "islip"), ("longest_waits_firm.txt", "firm")):
        for lines in files.read_cases(name):
            case = dict(line for line in lines if line[0] != "rows")
            ports, rounds, slots = (int(word) for word in case["case"].split())
            grant, *accept = (int(word) for word in case["pointers"].split())
            rows = [[int(mask) for mask in text.split()] for word, text in lines if word == "rows"]
            asked = [([[output for output in range(ports) if mask >> output & 1] for mask in masks], [FREE] * ports) for masks in rows]
            begin = {"grant": [grant] + [0] * (ports - 1), "accept": accept}
            cases.append({"text": text_of(ports, rounds, asked, False), "settings": {"rule": rule, "begin": begin}, "slots": slots})
            names.append(f"{name}, {case['case']}")
    for name, case, found in zip(names, cases, ask("decidedAll", cases=cases)):
        served = [match[0] == 0 for match in found["matches"]]
        expect(served == [False] * (case["slots"] - 1) + [True], f"{name}: {served}")
    return f"{len(cases)} schedules"


def test_playground_cells(_):
    """Queues that hold cells: each line of a text puts cells into them, and a queue that is served gives one."""
    if no_node():
        return no_node()
    text = "slot 0 requests 0>0:0u 1>0:0u\nslot 1 requests 0>0:0u\nslot 2 requests\n"
    found = ask("decided", text="journal ports 2 rounds 1\n" + text, settings={"queues": "cells"}, slots=4)
    # Output 0 serves input 0 first, then its pointer is at input 1; the cells before each slot are of 0>0 and 1>0.
    expect([[cells[0], cells[2]] for cells in found["cells"]] == [[1, 1], [1, 1], [1, 0], [0, 0]], f"{found['cells']}")
    return expect([match[0] for match in found["matches"]] == [0, 1, 0, FREE], f"{found['matches']}")


# Texts of three ports, and what is read of them: the places of each slot and the matches, or why they are refused.
TEXTS = (
    ("slot 0 requests 0>1,2:0u 2>*:0u more * matches 0>1:0u\n\n# a note\r\n  slot 1   requests\t1>0:0u more 0\n",
     {"ports": 3, "rounds": None, "lines": [[1, 2, 6, 7, 8], [3]], "matches": [[FREE, 0, FREE], None]}),
    ("journal ports 2 rounds 5\nslot 0 requests matches", {"ports": 2, "rounds": 5, "lines": [[]], "matches": [[FREE, FREE]]}),
    ("", "there is no line of a slot"),
    ("slot 1 requests", 'line 1: "slot 1 requests" is not the line of slot 0, such as: slot 0 requests 0>1,2:0u 1>0:0u'),
    ("slot 0 requests\nslot 0 requests", 'line 2: "slot 0 requests" is not the line of slot 1, such as: slot 1 requests 0>1,2:0u 1>0:0u'),
    ("slot 0 requests matches more", 'line 1: "slot 0 requests matches more" is not the line of slot 0, such as: slot 0 requests 0>1,2:0u 1>0:0u'),
    ("slot 0 requests 0>3:0u", "line 1: there is no port 3"),
    ("slot 0 requests 3>0:0u", "line 1: there is no port 3"),
    ("slot 0 requests 0>1:1u", 'line 1: "0>1:1u" is no request of the playground, such as 0>1,2:0u'),
    ("slot 0 requests 0>1:0m", 'line 1: "0>1:0m" is no request of the playground, such as 0>1,2:0u'),
    ("slot 0 requests 0>01:0u", 'line 1: "0>01:0u" is no request of the playground, such as 0>1,2:0u'),
    ("slot 0 requests 0>1,1:0u", "line 1: an output is asked twice by one input"),
    ("slot 0 requests matches 0>*:0u", 'line 1: "0>*:0u" is no pair of the playground, such as 0>1:0u'),
    ("journal ports 65 rounds 1\nslot 0 requests", 'line 1: "journal ports 65 rounds 1" is not of the form: journal ports 4 rounds 1'),
    ("journal ports 2\nslot 0 requests", 'line 1: "journal ports 2" is not of the form: journal ports 4 rounds 1'),
)


def test_playground_texts(_):
    """Texts that are read, and lines that are refused."""
    if no_node():
        return no_node()
    for (text, want), found in zip(TEXTS, ask("scripts", texts=[text for text, _ in TEXTS])):
        expect(found == want, f"{text!r}: {found}")
    return f"{len(TEXTS)} texts"


def settings_of(job):
    """What the playground calls the words of a simulation."""
    traffic = {name: getattr(job, name) for name in ("pattern", "load", "weight", "burst", "seed", "depth")}
    return {"ports": job.ports, "rounds": job.rounds, "rule": job.scheduler, "traffic": traffic}


def sums_of(job):
    """What the model of `simulate` prints of all slots of a job, by the playground's names."""
    lines = dict(line.split(" ", 1) for line in simulate(job) if not line.startswith(("port", "batch")))
    told = {name: int(lines[name]) for name in ("arrived", "dropped", "departed", "delays", "longest")}
    return {**told, "waiting": int(lines["waiting"].split()[0])}


def test_made_words(_):
    """The random words are those that the authors of SplitMix64 publish, and those of the model's streams."""
    if no_node():
        return no_node()
    published = [16_294_208_416_658_607_535, 7_960_286_522_194_355_700, 487_617_019_471_545_679]
    expect(ask("words", state=0, count=3) == [str(word) for word in published], "other words than the published ones")
    stream = Stream(1_000_000_000, 63)
    given = str(stream.state)
    return expect(ask("words", state=given, count=100) == [str(stream.next()) for _ in range(100)], "other words than the model's")


def test_made_traffic(_):
    """What comes to each input in each slot is what the model of `simulate` has, for all patterns, at the least and the most of each number too."""
    if no_node():
        return no_node()
    numbers = ((0, 1, 900_000, 1, 0), (1, 4, 500_000, 16, 400_000), (2, 5, 950_000, 4096, 1_000_000), (1_000_000_000, 64, 1_000_000, 4096, 50_000),
               (7, 3, 1, 1, 999_999), (8, 7, 123_457, 3, 1), (9, 16, 0, 16, 500_000), (10, 64, 999_999, 4095, 123_456))
    jobs = [Job(seed, 200, ports, load=load, burst=burst, pattern=pattern, weight=weight if pattern in WEIGHED else 0)
            for pattern in PATTERNS for seed, ports, load, burst, weight in numbers]
    found = ask("coming", traffics=[{"ports": job.ports, **settings_of(job)["traffic"]} for job in jobs], slots=200)
    for job, made in zip(jobs, found):
        sources = [Source(job, port) for port in range(job.ports)]
        expect(made == [[source.next() for source in sources] for _ in range(200)], f"{job}")
    return f"{len(jobs)} traffics of 200 slots"


def test_made_sums(_):
    """The sums and the longest wait up to slot 1000 are those of the model of `simulate` with the same words."""
    if no_node():
        return no_node()
    jobs = [Job(seed, 1000, 4, scheduler=scheduler, rounds=rounds, load=load, burst=burst, pattern=pattern, weight=weight, depth=depth)
            for scheduler in ("islip", "firm", "rrm")
            for seed, rounds, load, burst, pattern, weight, depth in (
                (1, 4, 900_000, 1, "uniform", 0, 4096), (2, 1, 950_000, 1, "diagonal", 0, 4096), (3, 1, 1_000_000, 16, "hot-spot", 300_000, 9),
                (4, 2, 700_000, 8, "unbalanced", 500_000, 4), (5, 1, 800_000, 1, "log-diagonal", 0, 1))]
    dropped = 0
    for job, found in zip(jobs, ask("sums", jobs=[settings_of(job) for job in jobs], slots=COUNTED_SLOTS)):
        for slots, sums in zip(COUNTED_SLOTS, found):
            want = sums_of(dataclasses.replace(job, slots=slots))
            expect(sums == want, f"{job}, {slots} slots: {sums}, not {want}")
        dropped += found[-1]["dropped"]
    return f"{len(jobs)} runs of 1000 slots, {dropped} cells dropped"
