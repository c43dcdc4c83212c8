"""Tests of the viewer: two runs side by side, and files that are dropped on a run."""

from . import files
from .browser import END, RIGHT, expect

LECTURE = files.ROOT / "viewer/lecture"


def slot_lines(name):
    """The pairs of each slot by a report of the vector files."""
    lines = (files.DATA / f"{name}.report").read_text().splitlines()
    return [line.split()[6:] for line in lines if line.startswith("slot ")]


def differing_slots(one, other):
    longer = max(len(one), len(other))
    pad = lambda slots: slots + [[]] * (longer - len(slots))
    return [slot for slot, (here, there) in enumerate(zip(pad(one), pad(other))) if here != there]


def pair_text(pair):
    """An entry I>J:LK of a slot line, as the page words it."""
    between, queue = pair.split(":")
    source, output = between.split(">")
    return f"input {source} feeds output {output}, level {queue[0]}, {'unicast' if queue[1] == 'u' else 'multicast'}"


def open_two(viewer, first, second):
    viewer.load()
    viewer.open(first)
    viewer.open(second, field="file-2")


# How many pairs are marked in each crossbar.
MARKED = """
SlotViewer.page.goByUser(arguments[0]);
SlotViewer.page.frame();
return SlotViewer.page.panes.map((pane) => pane.crossbar.scene.onlyHere.length);
"""


def test_two_runs(viewer):
    """One load under two schedulers, on the same slot: pairs that are in one run alone are marked and told."""
    count = 0
    for other in ("firm", "rrm"):
        here, there = slot_lines("islip"), slot_lines(other)
        open_two(viewer, files.DATA / "islip.journal", files.DATA / f"{other}.journal")
        differing = viewer.run("return SlotViewer.page.comparison.differing")
        expect(differing == differing_slots(here, there), f"islip and {other}: {differing}")
        for slot in differing:
            viewer.push("next-unlike")
            expect(viewer.slot() == slot, f"the next slot is {viewer.slot()} and not {slot}")
            for name, mine, its in (("slot-text", here, there), ("slot-text-2", there, here)):
                mine, its = (pairs[slot] if slot < len(pairs) else [] for pairs in (mine, its))
                only = [f"only here: {pair_text(pair)}" for pair in mine if pair not in its]
                only += [f"only there: {pair_text(pair)}" for pair in its if pair not in mine]
                told = [line for line in viewer.lines(f"#{name} li") if line.startswith("only ")]
                expect(told == only or (mine == [] and told == []), f"islip and {other}, slot {slot}, {name}: {told} and not {only}")
                count += len(only)
        marked = viewer.run(MARKED, differing[0])
        want = [len([pair for pair in mine[differing[0]] if pair not in its[differing[0]]]) for mine, its in ((here, there), (there, here))]
        expect(marked == want, f"marked: {marked} and not {want}")
        viewer.shoot(f"beside_{other}")
    return f"{count} pairs that are in one run alone"


def test_waits_of_two_runs(viewer):
    """Full load under iSLIP and under RRM: waits that differ are marked with a sign, and the shorter run ends."""
    open_two(viewer, LECTURE / "full_load_rrm.journal", LECTURE / "full_load_islip.journal")
    for _ in range(3):
        viewer.press("", RIGHT)
    # Under RRM one queue a slot has been served; under iSLIP those with input + output up to 3.
    want = [[str(4), str(3 - source - output), str(source), str(output), "0", "unicast"]
            for source in range(4) for output in range(1, 4) if source + output <= 3]
    told = viewer.table("Waits that differ")
    first = [row for row in want if row[1] != "0"] + [["4", "0", str(source), str(3 - source), "0", "unicast"] for source in range(3)]
    half = len(told) // 2
    expect(sorted(told[:half]) == sorted(first), f"{told[:half]} and not {first}")
    svg = viewer.run("return SlotViewer.page.panes.map((pane) => pane.crossbar.svg('a').match(/≠\\d+/g))")
    expect(sorted(svg[0]) == ["≠4"] * 6 and sorted(svg[1]) == ["≠0"] * 3 + ["≠1"] * 2 + ["≠2"], f"numbers with a sign: {svg}")
    viewer.shoot("beside_full_load")
    viewer.press("", ".")
    viewer.press("", ".")
    lines = [viewer.lines(f"#slot-text{suffix} .step-lines li")[0] for suffix in ("", "-2")]
    expect(all("grants input 3" in line for line in lines), f"both are at the step grant: {lines}")
    viewer.press("", END)
    expect(viewer.slot() == 64, f"the last slot of the longer run is {viewer.slot()}")
    expect("The run ended with slot 19" in viewer.text("slot-text-2"), viewer.text("slot-text-2"))
    expect(viewer.run("return document.getElementById('timeline').getAttribute('aria-valuemax')") == "64", "the slider's last slot")
    viewer.push("close-second")
    expect(not viewer.is_shown("pane-2") and not viewer.is_shown("next-unlike") and viewer.is_shown("pane"), "the second run is closed")
    viewer.open(files.DATA / "islip.report", field="file-2")
    expect("4 and 3 ports, so their slots are not compared" in viewer.text("notice"), viewer.text("notice"))
    viewer.open(files.DATA / "rrm.journal", files.DATA / "rrm.report")
    expect(viewer.text("crossbar-title") == "rrm.journal (first run)", "of a report and a journal of one run the journal is shown")


def test_heights_of_two_runs(viewer):
    """Both crossbars stand at one height, also where what is said above one of them takes more lines."""
    for width in (1400, 1100, 1000):
        viewer.load("#slot=3")
        viewer.view_port(width, 900)
        viewer.open(files.ROOT / "viewer/lecture/full_load_islip.journal", files.ROOT / "viewer/lecture/full_load_rrm.journal")
        viewer.choose("scheduler-2", "islip")
        viewer.wait("SlotViewer.page.second.fitting !== null && document.querySelector('#rules-line-2 button')", "the longer line")
        bars = [viewer.run("return document.querySelector(arguments[0]).firstElementChild.offsetHeight", f"#{name} .title") for name in ("pane", "pane-2")]
        frames = [viewer.place(name) for name in ("crossbar", "crossbar-2")]
        lines = [viewer.place(name) for name in ("rules-line", "rules-line-2")]
        expect(lines[1][3] - lines[1][1] > lines[0][3] - lines[0][1], f"{width}: the lines above are as high, {lines}, {bars}")
        expect(frames[0][1] == frames[1][1] and frames[0][3] == frames[1][3], f"{width}: the crossbars stand at {frames}")
        expect(viewer.place("step-line")[1] == viewer.place("step-line-2")[1], f"{width}: the steps stand at different heights")
        expect(frames[1][3] <= 900, f"{width}: the crossbars end at {frames[1][3]}")
    viewer.shoot("one_height")
    viewer.view_port(0, 0)


def test_rounds_of_two_runs(viewer):
    """The same requests with two rounds and with one: a step that one run does not have, and what differs."""
    viewer.load("#slot=0&step=accept")
    viewer.open_bytes("two.journal", files.steps_journal(2))
    viewer.open_bytes("one.journal", files.steps_journal(1), field="file-2")
    for name in ("summary", "summary-2"):
        expect("The journal is lawful" in viewer.text(name), viewer.text(name))
    viewer.press("", ".")
    expect("Round 2, request" in viewer.text("step-line"), viewer.text("step-line"))
    said = viewer.text("step-line-2")
    expect(said == "Slot 0. There is no further round here. Round 1, accept: 2 inputs accept, and 1 grant is refused.", said)
    for _ in range(3):
        viewer.press("", ".")
    expect([viewer.text(name).split(":")[0] for name in ("step-line", "step-line-2")] == ["Slot 0. Pointers"] * 2, viewer.text("step-line-2"))
    expect("stays at 0: the head of input 0 is not served whole" in viewer.text("slot-text-2"), viewer.text("slot-text-2"))
    only = [[line for line in viewer.lines(f"#{name} li") if line.startswith("only ")] for name in ("slot-text", "slot-text-2")]
    pair = "input 0 feeds output 2, level 0, multicast"
    expect(only == [[f"only here: {pair}"], [f"only there: {pair}"]], f"{only}")
    expect(viewer.table("Waits that differ") == [["0", "1", "0", "1, 2", "0", "multicast"], ["1", "0", "0", "1, 2", "0", "multicast"]],
           f"{viewer.table('Waits that differ')}")


# Drops files, given as names and hexadecimal digits, on an element.
DROP = """
const transfer = new DataTransfer();
arguments[1].forEach(([name, digits]) => transfer.items.add(new File([Uint8Array.from(digits.match(/../g), (two) => parseInt(two, 16))], name)));
document.getElementById(arguments[0]).dispatchEvent(new DragEvent("drop", { dataTransfer: transfer, bubbles: true, cancelable: true }));
"""


def drop(viewer, where, *names):
    viewer.run("SlotViewer.page.showNotice('')")
    viewer.run(DROP, where, [(name, (files.DATA / name).read_bytes().hex()) for name in names])
    viewer.wait_read(names)


def test_drops(viewer):
    """Files that are dropped: a packets file with its journal, two runs, and one on the second crossbar."""
    viewer.load()
    drop(viewer, "welcome", "firm.packets.csv", "firm.journal")
    expect(viewer.text("crossbar-title") == "firm.journal" and viewer.is_shown("squares") and not viewer.is_shown("fault"), viewer.text("fault"))
    drop(viewer, "pane", "islip.journal", "rrm.journal")
    titles = [viewer.text(name) for name in ("crossbar-title", "crossbar-title-2")]
    expect(titles == ["islip.journal (first run)", "rrm.journal (second run)"], f"{titles}")
    drop(viewer, "crossbar-2", "firm.journal")
    titles = [viewer.text(name) for name in ("crossbar-title", "crossbar-title-2")]
    expect(titles == ["islip.journal (first run)", "firm.journal (second run)"], f"{titles}")
    drop(viewer, "pane", "firm.packets.csv")
    expect(viewer.is_shown("squares-2") and not viewer.is_shown("squares"), "the packets file is beside the run of its name")
