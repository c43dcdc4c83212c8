"""Tests of the viewer: the rules of the schedulers, on decisions, schedules and journals of the vector files."""

from . import files
from .browser import expect

# What the check of a journal under a scheduler ends with, None for a lawful one: (journal, scheduler, failure).
CHECKS = (("check_islip", "islip", None), ("check_firm", "firm", None), ("check_rrm", "rrm", None), ("check_firm", "islip", "slot 3 output 0"),
          ("check_firm", "rrm", "slot 3 output 0"), ("check_rrm", "firm", "slot 3 output 0"), ("check_islip", "rrm", "slot 3 output 0"),
          ("islip", "islip", None), ("firm", "firm", None), ("rrm", "rrm", None))
# The longest wait of level 0 in each of them.
LONGEST = {"check_islip": 3, "check_firm": 2, "check_rrm": 4, "islip": 4, "firm": 3, "rrm": 3}


def test_scheduler(viewer):
    """The decisions of the vector files, and that the steps add up to them."""
    count = 0
    for name in ("decide_refuses.txt", "decide_random.txt", "decide_many_ports.txt"):
        for lines in files.read_cases(name):
            case = dict(lines)
            pointers = {key: [[int(port) for port in level.split(",")] for level in case[key].split("/")] for key in ("grant", "accept")}
            rows = [{key: [mask >> 32 & 0xffffffff, mask & 0xffffffff] for key, mask in row.items()} for row in files.read_rows(case["rows"])]
            got = viewer.run(DECIDE, int(case["n"]), int(case["rounds"]), int(case["slot"]), rows, pointers["grant"],
                             pointers["accept"], [int(port) for port in case["shared"].split(",")])
            want = [case[key] for key in ("match", "numbers", "grant_after", "accept_after", "shared_after")]
            expect(got == want, f"{name}, {case['case']}: {got} and not {want}")
            count += 1
    return f"{count} decisions"


# What of the steps of a slot is not what was decided: its pairs, round by round, and the pointers.
STEP_FAULTS = """
const stepFaults = (steps, made, before, after) => {
    const found = [];
    const inputs = new Array(made.ports).fill(255);
    const moved = new SlotViewer.Pointers(made.ports);
    moved.copyFrom(before);
    for (const step of steps) {
        if (step.phase === "accept") {
            step.accepts.forEach(({ input, outputs }) => outputs.forEach((output) => { inputs[output] = input; }));
            const asked = step.requests.map(({ input, output, queue }) => `${input} ${output} ${queue}`);
            const isAsked = ({ input, output, queue }) => asked.includes(`${input} ${output} ${queue}`);
            if (!step.grants.every(isAsked)) { found.push("a grant that was not asked"); }
        }
        (step.moves || []).forEach(({ side, port, level, from, to }) => {
            const place = side === "shared" ? level : level * made.ports + port;
            if (moved[side][place] !== from) { found.push(`a ${side} pointer that moves from elsewhere`); }
            moved[side][place] = to;
        });
        if (SlotViewer.stepLines(step).some((line) => /undefined|null|NaN/.test(line))) { found.push(`the sentences of ${step.name}`); }
    }
    if (inputs.join() !== Array.from(made.inputs).join()) { found.push("the pairs of the steps"); }
    for (const side of ["grant", "accept", "shared"]) {
        if (moved[side].join() !== after[side].join()) { found.push(`the ${side} pointers after the steps`); }
    }
    return found;
};
"""

DECIDE = STEP_FAULTS + """
const [ports, rounds, slot, given, grant, accept, shared] = arguments;
const rows = new SlotViewer.Rows(ports);
given.forEach((row, input) => Object.entries(row).forEach(([name, [high, low]]) => {
    const place = rows.place(input, name[0] === "u" ? 0 : 1, Number(name[1]));
    rows.words[place] = low;
    rows.words[place + 1] = high;
}));
const pointers = new SlotViewer.Pointers(ports);
pointers.grant.set(grant.flat());
pointers.accept.set(accept.flat());
pointers.shared.set(shared);
const before = new SlotViewer.Pointers(ports);
before.copyFrom(pointers);
const made = new SlotViewer.Scheduler(ports, rounds);
made.decide(slot, rows, pointers);
const walker = { ports, journal: { rounds }, scheduler: made, pointers: before, rows, slot };
const faults = stepFaults(SlotViewer.stepsOf(walker), made, before, pointers);
if (faults.length > 0) { return faults; }
const pairs = Array.from(made.inputs, (input, output) =>
    input === 255 ? "-" : `${input}:${made.queues[output] >> 1}${"um"[made.queues[output] & 1]}`);
const lists = (flat) => [0, 1, 2, 3].map((level) => Array.from(flat.slice(level * ports, (level + 1) * ports)).join(",")).join("/");
return [pairs.join(","), `${made.used} ${made.first} ${made.lastAdded}`, lists(pointers.grant), lists(pointers.accept),
    Array.from(pointers.shared).join(",")];
"""

# Reads a journal file given as hexadecimal digits, goes through it, and tells what was found.
JUDGE = """
const bytes = Uint8Array.from(arguments[0].match(/../g) || [], (digits) => parseInt(digits, 16));
const finish = (generator) => { let step; do { step = generator.next(); } while (!step.done); return step.value; };
try {
    const journal = finish(SlotViewer.readJournal(bytes));
    const analysis = new SlotViewer.Analysis(journal, arguments[1]);
    finish(SlotViewer.analyse(analysis));
    return [analysis.longest, analysis.differing, analysis.failure && `slot ${analysis.failure.slot} ${analysis.failure.reason}`];
} catch (fault) {
    if (!(fault instanceof SlotViewer.FileFault)) { throw fault; }
    return fault.message;
}
"""


def judge(viewer, data, scheduler="islip"):
    return viewer.run(JUDGE, data.hex(), scheduler)


def test_three_schedulers(viewer):
    """Journals of runs under each scheduler, and full load, whose pairs are plain."""
    for name, scheduler, want in CHECKS:
        longest, _, failure = judge(viewer, (files.DATA / f"{name}.journal").read_bytes(), scheduler)
        expect(failure == want, f"{name} by {scheduler}: {failure} and not {want}")
        expect(longest == [LONGEST[name], 0, 0, 0], f"{name}: longest {longest}")
    for ports in range(1, 7):
        for made, schedulers in ((files.full_load_islip, ("islip", "firm")), (files.full_load_rrm, ("rrm",))):
            for scheduler in schedulers:
                found = judge(viewer, made(ports, 3), scheduler)
                expect(found[1:] == [[], None], f"full load of {ports} ports by {scheduler}: {found}")
    return f"{len(CHECKS)} journals, and full load of 1 to 6 ports"


def test_longest_waits(viewer):
    """Schedules of the vector files in which a request waits as long as it can, under iSLIP and FIRM."""
    count = 0
    for name, scheduler in (("longest_waits.txt", "islip"), ("longest_waits_firm.txt", "firm")):
        for lines in files.read_cases(name):
            case = dict(line for line in lines if line[0] != "rows")
            ports, rounds, slots = (int(word) for word in case["case"].split())
            pointers = [int(word) for word in case["pointers"].split()]
            rows = [[int(mask) for mask in text.split()] for word, text in lines if word == "rows"]
            served = viewer.run(SERVED, ports, rounds, pointers, rows, scheduler)
            expect(served == [False] * (slots - 1) + [True], f"{name}, {case['case']}: {served}")
            count += 1
    return f"{count} schedules"


# In which slots input 0 gets output 0, which it asks in every slot, all at level 0.
SERVED = """
const [ports, rounds, [grant, ...accept], slots, scheduler] = arguments;
const pointers = new SlotViewer.Pointers(ports);
pointers.grant[0] = grant;
pointers.accept.set(accept);
const made = new SlotViewer.Scheduler(ports, rounds, scheduler);
return slots.map((masks, slot) => {
    const rows = new SlotViewer.Rows(ports);
    masks.forEach((mask, input) => { rows.words[rows.place(input, 0, 0)] = mask; });
    made.decide(slot, rows, pointers);
    return made.inputs[0] === 0;
});
"""


def test_schedules(viewer):
    """The schedules of the vector files as journals: each match is that of the rules, and a changed one is found."""
    count = 0
    for lines in files.read_cases("schedules.txt"):
        case = dict(line for line in lines if line[0] != "slot")
        ports, rounds = int(case["n"]), int(case["rounds"])
        slots = []
        for _, text in (line for line in lines if line[0] == "slot"):
            rows, answer = text.split(" -> ")
            slots.append((files.read_rows(rows), [1] * ports, files.read_match(answer.split(" ")[0])))
        _, differing, failure = judge(viewer, files.journal_bytes(ports, rounds, slots))
        last = len(slots) - 1
        expect(differing == [] and failure == f"slot {last} no end", f"{case['case']}: {differing}, {failure}")
        rows, more, match = slots[last]
        match = [None if pair else (ports - 1, 3, 1) for pair in match]
        found = judge(viewer, files.journal_bytes(ports, rounds, slots[:last] + [(rows, more, match)]))
        expect(found[1] == [last] and found[2] == f"slot {last} output 0", f"{case['case']}, changed: {found}")
        count += 1
    return f"{count} schedules"


def test_waits(viewer):
    """The waits of the vector files."""
    count = 0
    for lines in files.read_cases("waits.txt"):
        case = dict(line for line in lines if line[0] != "note")
        slots = []
        for _, text in (line for line in lines if line[0] == "note"):
            given, longest = text.split(" -> ")
            rows, match = given.split(" ")
            slots.append((files.read_rows(rows), [1] * int(case["n"]), files.read_match(match)))
            found = judge(viewer, files.journal_bytes(int(case["n"]), 1, slots))[0]
            expect(found == [int(wait) for wait in longest.split()], f"{case['case']}, slot {len(slots) - 1}: {found}")
            count += 1
    return f"{count} waits"
