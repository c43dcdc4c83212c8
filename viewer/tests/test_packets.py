"""Tests of the viewer: how full queues are, and the packets of a packets file."""

import collections
import csv
import re

from . import files
from .browser import DOWN, LEFT, RIGHT, expect

SCHEDULERS = ("islip", "firm", "rrm")


def packets_rows(name):
    with (files.DATA / f"{name}.packets.csv").open(newline="") as file:
        return list(csv.DictReader(file))


def queue_lines(name):
    """The lines `queue` of a report: by the place of a queue its words."""
    lines = [line.split() for line in (files.DATA / f"{name}.report").read_text().splitlines() if line.startswith("queue ")]
    return {words[1]: dict(zip(words[2::2], map(int, words[3::2]))) for words in lines}


# The lengths of all queues in all slots: [["I>J:Lu", [length of slot 0, ..]], ..].
LENGTHS = """
const { run, queues } = SlotViewer.page.first;
const found = [];
for (const [map, kind] of [[queues.unicast, 0], [queues.multicast, 1]]) {
    for (const [key, queue] of map) {
        const [place, output] = [Math.floor(key / run.ports), key % run.ports];
        const name = `${place >> 2}>${kind === 0 ? output : "*"}:${place & 3}${"um"[kind]}`;
        found.push([name, Array.from({ length: run.slots }, (_, slot) => queue.length(slot))]);
    }
}
return found;
"""


def test_queues(viewer):
    """Lengths of queues: each greatest one, and its slot, is that of the report."""
    count = 0
    for name in SCHEDULERS:
        viewer.load()
        viewer.open(files.DATA / f"{name}.journal", files.DATA / f"{name}.packets.csv")
        expect(not viewer.is_shown("fault"), viewer.text("fault"))
        lengths = dict(viewer.run(LENGTHS))
        lines = queue_lines(name)
        expect(set(lengths) == {queue for queue, words in lines.items() if words["cells"] > 0}, f"{name}: {sorted(lengths)}")
        for queue, all_slots in lengths.items():
            peak = max(all_slots)
            found = (peak, all_slots.index(peak))
            expect(found == (lines[queue]["peak"], lines[queue]["slot"]), f"{name}, {queue}: {found} and not {lines[queue]}")
            count += 1
        viewer.open(files.DATA / f"{name}.report")
        expect(len(viewer.table("Queues")) == len(lines), f"{name}: {viewer.table('Queues')}")
        deepest = str(max(words["peak"] for words in lines.values()))
        expect(["cells in the deepest queue", deepest] in viewer.table("Summary"), f"{name}: {viewer.table('Summary')}")
    report = (files.DATA / "firm.report").read_text()
    found = viewer.run(READ_REPORTS, [report, report.replace("deepest 8", "deepest 7"), report.replace("deepest 8\n", "")])
    fault = f"line {1 + report[:report.index('deepest')].count(chr(10))}: "
    expect(found[0] == 8 and all(isinstance(one, str) and one.startswith(fault) for one in found[1:]), f"{found}")
    # Without a queue the line stands alone.
    alone = re.sub(r"queue .*\n", "", report).replace("deepest 8", "deepest 0")
    expect(viewer.run(READ_REPORTS, [alone]) == [0], "a report without queues")
    return f"{count} queues"


def choose_queue(viewer, source, output, level, kind):
    for name, value in (("input", source), ("output", output), ("level", level), ("kind", "um".index(kind))):
        viewer.choose(f"queue-{name}", str(value))
    return viewer.text("queue-line")


def test_one_queue(viewer):
    """One queue over time, of a report with a packets file: its greatest length, with the slot, is that of the report."""
    count = 0
    viewer.load("#slot=11")
    viewer.open(files.DATA / "firm.journal")
    expect(not viewer.is_shown("queue-part"), "a journal alone has no lengths of queues")
    for name in SCHEDULERS:
        viewer.load("#slot=11")
        viewer.open(files.DATA / f"{name}.report", files.DATA / f"{name}.packets.csv")
        lines = {queue: words for queue, words in queue_lines(name).items() if words["cells"] > 0}
        deepest = max(words["peak"] for words in lines.values())
        expect(f"holds at most {deepest} cell" in viewer.text("queue-line"), f"{name}, at first: {viewer.text('queue-line')}")
        for queue, words in lines.items():
            source, output, level, kind = re.fullmatch(r"(\d+)>(\d+|\*):(\d)([um])", queue).groups()
            said = choose_queue(viewer, source, 0 if output == "*" else output, level, kind)
            cells = f"{words['peak']} cell{'' if words['peak'] == 1 else 's'}"
            expect(said.startswith(f"Here the queue holds at most {cells}, first in slot {words['slot']}; in slot 11 it holds "), f"{name}, {queue}: {said}")
            count += 1
    return f"{count} queues"


def test_one_queue_of_two_runs(viewer):
    """One queue over time: chosen at a crosspoint, drawn, in two runs, and none where the words name none."""
    viewer.load("#slot=11")
    # The queue from input 1 to output 1 of firm.packets.csv holds 8 cells in slot 11, and none before its first packet.
    viewer.open(files.DATA / "firm.journal", files.DATA / "firm.packets.csv")
    for key in (RIGHT, RIGHT, DOWN):
        viewer.press("crossbar", key)
    expect([viewer.run("return document.getElementById(arguments[0]).value", f"queue-{name}") for name in ("input", "output")] == ["1", "1"], "a crosspoint")
    expect(viewer.text("queue-line").endswith("in slot 11 it holds 8."), viewer.text("queue-line"))
    inked = viewer.run("""const { canvas } = SlotViewer.page.queueChart; const { timeline } = SlotViewer.page;
        const density = canvas.width / canvas.clientWidth;
        const row = canvas.getContext("2d").getImageData(0, Math.round(30 * density), canvas.width, 1).data;
        return [2.5, 11.5].map((slot) => row[4 * Math.round(density * timeline.scale(slot)) + 3])""")
    expect(inked[0] == 0 and inked[1] > 0, f"the chart has {inked} in slots 2 and 11")
    viewer.open(files.DATA / "rrm.journal", field="file-2")
    viewer.open(files.DATA / "rrm.packets.csv")
    peaks = [queue_lines(name)["1>1:0u"]["peak"] for name in ("firm", "rrm")]
    said = viewer.text("queue-line")
    runs = ("In the first run (filled)", "In the second run (dashed)")
    expect(all(f"{run} the queue holds at most {peak} cells" in said for run, peak in zip(runs, peaks)), said)
    viewer.shoot("one_queue")
    viewer.choose("queue-level", "2")
    expect(viewer.text("queue-line") == " ".join(f"{run} no cell comes to this queue." for run in runs), viewer.text("queue-line"))
    for odd in ("3", "", "x"):
        viewer.choose("queue-input", odd)
        expect(viewer.text("slot-fault") == "A queue has an input and an output from 0 to 2.", viewer.text("slot-fault"))
    viewer.click("queue-chart", viewer.run("return SlotViewer.page.timeline.scale(4.5)"))
    expect(viewer.slot() == 4, f"a click on the chart leads to slot {viewer.slot()}")


def test_reports_of_jobs(viewer):
    """Reports of tests/jobs with lines of queues, by which one of them tells the deepest."""
    texts = [path.read_text() for path in sorted((files.ROOT / "tests/jobs").glob("*/expected/out.report"))]
    deepest = [re.search(r"^deepest (\d+)$", text, re.MULTILINE) for text in texts]
    expect(any(deepest), "no job has lines of queues")
    found = viewer.run(READ_REPORTS, texts)
    expect(found == [it and int(it[1]) for it in deepest], f"{found}")
    return f"{sum(map(bool, deepest))} of {len(texts)} reports with queues"


# What each text of a report tells of the deepest queue, or why it is none.
READ_REPORTS = """
const finish = (generator) => { let step; do { step = generator.next(); } while (!step.done); return step.value; };
return arguments[0].map((text) => {
    try {
        return finish(SlotViewer.readReport(new TextEncoder().encode(text))).deepest;
    } catch (fault) {
        if (!(fault instanceof SlotViewer.FileFault)) { throw fault; }
        return fault.message;
    }
});
"""


def test_packets_in_a_queue(viewer):
    """Numbers and bars in the squares; the packets of a queue where the mouse points, and by keys."""
    viewer.load("#slot=11")
    viewer.open(files.DATA / "firm.journal")
    viewer.open(files.DATA / "firm.packets.csv")
    # The report has this queue's greatest length, 8, in slot 11.
    expect(">8</text>" in viewer.run("return SlotViewer.page.first.crossbar.svg('a')"), "the number 8 in a square")
    viewer.hover("crossbar", *viewer.run("const { crossbar } = SlotViewer.page.first; return [crossbar.x(1), crossbar.y(1)]"))
    said = viewer.text("crosspoint")
    # Packets 0 to 4 have come by slot 11; packet 0 departs in slot 9, the next ones in 17, 18 and 22.
    expect("8 cells of packet 1 (3 cells), packet 2 (1 cell), packet 4 (4 cells)" in said, said)
    viewer.shoot("queues")
    viewer.hover("timeline", 100, 10)
    expect("Point at a crosspoint" in viewer.text("crosspoint"), viewer.text("crosspoint"))
    for key in (RIGHT, RIGHT, "\ue015"):
        viewer.press("crossbar", key)
    expect("8 cells of packet 1" in viewer.text("crosspoint"), viewer.text("crosspoint"))
    expect(viewer.lines("#packets-at button") == [f"Follow packet {number} of input 1" for number in (1, 2, 4)], f"{viewer.lines('#packets-at button')}")
    viewer.choose("squares", "waits")
    expect(">8</text>" not in viewer.run("return SlotViewer.page.first.crossbar.svg('a')"), "waits in the squares")
    viewer.load("#slot=4")
    viewer.open(files.DATA / "firm.report", files.DATA / "firm.packets.csv")
    expect(">3</text>" in viewer.run("return SlotViewer.page.first.crossbar.svg('a')"), "a report with a packets file has lengths too")


def test_followed_packets(viewer):
    """Each packet from its arrival to its departure."""
    viewer.load()
    viewer.open(files.DATA / "firm.journal", files.DATA / "firm.packets.csv")
    packets = collections.defaultdict(list)
    for row in packets_rows("firm"):
        packets[row["input"], row["packet"]].append(row)
    for (source, number), rows in packets.items():
        viewer.choose("follow-input", source)
        viewer.choose("follow-packet", number)
        viewer.push("follow")
        said = viewer.text("followed")
        start = f"Packet {number} of input {source}: {rows[0]['bytes']} bytes, {rows[0]['cells']} cell"
        expect(said.startswith(start) and f"arrives in slot {rows[0]['arrival']}" in said, said)
        for row in rows:
            if row["state"] == "forwarded":
                expect(f"output {row['output']} in slot {row['departure']} (delay {row['delay']})" in said, said)
        expect((rows[0]["state"] == "dropped") == ("dropped, as its queue has no room" in said), said)
    return f"{len(packets)} packets"


def test_way_of_a_packet(viewer):
    """One packet before it comes, while it waits and when it has departed; what is no packet is followed nowhere."""
    viewer.load()
    viewer.open(files.DATA / "firm.journal", files.DATA / "firm.packets.csv")
    # Input 1's packet 1 has three cells, arrives in slot 5 and departs in slot 17.
    viewer.choose("follow-packet", "1")
    viewer.choose("follow-input", "1")
    viewer.push("follow")
    expect("it has not arrived" in viewer.text("followed"), viewer.text("followed"))
    viewer.run("document.querySelector('#followed button').click()")
    viewer.wait("SlotViewer.page.slot === 5", "its arrival")
    expect("In slot 5 3 of its 3 cells wait" in viewer.text("followed"), viewer.text("followed"))
    viewer.shoot("followed")
    viewer.run("document.querySelectorAll('#followed button')[1].click()")
    viewer.wait("SlotViewer.page.slot === 17", "its departure")
    expect("it has departed" in viewer.text("followed"), viewer.text("followed"))
    viewer.press("", LEFT)
    expect("its last cell" in viewer.text("followed") or "1 of its 3 cells waits" in viewer.text("followed"), viewer.text("followed"))
    viewer.choose("follow-packet", "99")
    viewer.push("follow")
    expect("no packet 99 of input 1" in viewer.text("slot-fault"), viewer.text("slot-fault"))
    followed = viewer.text("followed")
    for source, number, odd in (("", "0", ""), ("0", "", ""), ("0", " ", ""), ("0x0", "0", "0x0"), ("0", "-1", "-1"), ("0", "1e0", "1e0")):
        viewer.choose("follow-input", source)
        viewer.choose("follow-packet", number)
        viewer.push("follow")
        expect(viewer.text("slot-fault") == f'"{odd}" is no number of an input or of a packet.', viewer.text("slot-fault"))
        expect(viewer.text("followed") == followed, f"{source!r} {number!r}: {viewer.text('followed')}")


READ_PACKETS = """
const finish = (generator) => { let step; do { step = generator.next(); } while (!step.done); return step.value; };
const read = (text) => {
    try {
        return finish(SlotViewer.readPackets(new TextEncoder().encode(text))).list.map(({ state, departures }) => [state, departures]);
    } catch (fault) {
        if (!(fault instanceof SlotViewer.FileFault)) { throw fault; }
        return fault.message;
    }
};
return arguments[0].map(read);
"""


def test_packets_files(viewer):
    """Packets of all states; files that are cut, wrong or of another run get a line."""
    states, twice = ((files.DATA / f"{name}.packets.csv").read_text() for name in ("all_states", "departs_twice"))
    found = viewer.run(READ_PACKETS, [states, twice])
    expect([state for state, _ in found[0]] == ["unrouted", "dropped", "oversize", "forwarded", "unrouted", "forwarded", "forwarded"], f"{found[0]}")
    expect(found[1][0] == ["forwarded", [1, 2, 1]], f"{found[1]}")
    cuts = [states[:cut] for cut in range(1, len(states))]
    for cut, answer in zip(cuts, viewer.run(READ_PACKETS, cuts)):
        expect(isinstance(answer, str) != cut.endswith("\n"), f"{cut[-30:]!r}: {answer}")
    changes = (("delay\n", "delays\n", "line 1: the columns"),
               ("forwarded,0,u", "sent,0,u", 'line 7: the state is "sent"'),
               ("0,u,1,1177", "4,u,1,1177", "line 7: the level is 4"),
               ("1178,1\n", "1178,2\n", "line 7: the delay is not"),
               ("unrouted,,,,2", "unrouted,0,,,2", "line 2: a row of the state unrouted"),
               ("0,2,65536", "0,0,65536", "line 6: the row does not follow"),
               ("\n0,3,20,1", "\n0,3,20,1,9", "line 7: there are 12 fields"))
    for old, new, words in changes:
        answer = viewer.run(READ_PACKETS, [states.replace(old, new, 1)])[0]
        expect(isinstance(answer, str) and answer.startswith(words), f"{old!r} to {new!r}: {answer}")
    viewer.load()
    viewer.open(files.DATA / "firm.packets.csv")
    expect("open the journal of its run first" in viewer.text("fault"), viewer.text("fault"))
    viewer.open(files.DATA / "firm.journal")
    viewer.open(files.DATA / "rrm.packets.csv")
    # The first packet that departs in another slot: under FIRM in slot 7, under RRM in slot 8.
    expect("rrm.packets.csv is not of a run that is shown: the last cell of packet 1 of input 2 crosses to output 1 in slot 7 by the run, "
           "and in slot 8 by the packets file" in viewer.text("fault"), viewer.text("fault"))
    expect(not viewer.is_shown("squares"), "the file is not beside the run")
    viewer.open(files.DATA / "firm.journal", files.DATA / "rrm.packets.csv")
    expect("is not of a run that is shown" in viewer.text("fault") and viewer.run("return SlotViewer.page.first.analysis.done") == 26,
           f"the run is shown without the file: {viewer.text('fault')}")
    viewer.open(files.DATA / "rrm.journal", field="file-2")
    viewer.open(files.DATA / "rrm.packets.csv")
    expect(not viewer.is_shown("fault") and viewer.is_shown("squares-2") and not viewer.is_shown("squares"), "it is beside the run that it is of")
    return f"{len(cuts)} cuts"
