"""Tests of the viewer: the steps of a slot, and what the lecture of docs/VIEWER.md shows."""

import re

from . import files
from .browser import ESCAPE, RIGHT, expect

LECTURE = files.ROOT / "viewer/lecture"
LONG_WAIT = files.ROOT / "examples/long_wait"
SYNCHRONISED = files.ROOT / "examples/synchronised/expected"
STARVING = files.ROOT / "examples/starving/expected"

# The steps of slot 0 of steps_journal(): the name, the step in one line, and its sentences.
STEPS = (
    ("request", "Slot 0. Round 1, request: 2 inputs ask.",
     ["input 0 asks outputs 1 and 2 (level 0, multicast)", "input 1 asks outputs 0 and 2 (level 0, unicast)"]),
    ("grant", "Slot 0. Round 1, grant: 3 outputs grant.",
     ["output 0 grants input 1: the first asking input from its pointer 0 (level 0, unicast; input 1 asks)",
      "output 1 grants input 0: the first asking input from the shared multicast pointer 0 (level 0, multicast; input 0 asks)",
      "output 2 grants input 1: the first asking input from its pointer 0 (level 0, unicast; input 1 asks)"]),
    ("accept", "Slot 0. Round 1, accept: 2 inputs accept, and 1 grant is refused.",
     ["input 0 accepts all its multicast grants of level 0: output 1",
      "input 1 accepts output 0: the first granting output from its pointer 0 (level 0, unicast; outputs 0 and 2 grant)",
      "input 1 refuses output 2"]),
    ("request2", "Slot 0. Round 2, request: input 0, matched as multicast of level 0, asks for the rest of its fan-out: output 2.",
     ["input 0, matched as multicast of level 0, asks for the rest of its fan-out: output 2"]),
    ("grant2", "Slot 0. Round 2, grant: output 2 grants input 0: the first asking input from the shared multicast pointer 0 "
     "(level 0, multicast; input 0 asks).",
     ["output 2 grants input 0: the first asking input from the shared multicast pointer 0 (level 0, multicast; input 0 asks)"]),
    ("accept2", "Slot 0. Round 2, accept: input 0 accepts all its multicast grants of level 0: output 2.",
     ["input 0 accepts all its multicast grants of level 0: output 2"]),
    ("pointers", "Slot 0. Pointers: 3 pointers move, and 1 of a refused grant stays.",
     ["the grant pointer of output 0, level 0, moves from 0 to 2, one beyond input 1, which accepted",
      "the accept pointer of input 1, level 0, moves from 0 to 1, one beyond output 0",
      "the grant pointer of output 2, level 0, stays at 0: its grant to input 1 was refused",
      "the shared multicast pointer of level 0 moves from 0 to 1: the head of input 0 is served whole"]),
)


def sentences(viewer):
    return viewer.lines(".step-lines li")


def test_steps(viewer):
    """Request, grant, accept and pointers, step by step, forward and back, with a sentence for each port."""
    viewer.load()
    viewer.open_bytes("steps.journal", files.steps_journal())
    expect("The journal is lawful" in viewer.text("summary"), viewer.text("summary"))
    for name, line, lines in STEPS:
        viewer.press("", ".")
        expect(viewer.text("step-line") == line, f"{name}: {viewer.text('step-line')}")
        expect(sentences(viewer) == lines, f"{name}: {sentences(viewer)}")
        viewer.wait(f"location.hash === '#slot=0&step={name}'", f"the address of {name}")
        viewer.shoot(f"step_{name}")
    expect(lines[-1] in viewer.text("spoken"), f"spoken: {viewer.text('spoken')}")
    viewer.press("", ".")
    expect(viewer.slot() == 1 and viewer.text("step-line").startswith("Slot 1. Round 1, request: input 1 asks output 2"), viewer.text("step-line"))
    viewer.press("", ",")
    expect(viewer.slot() == 0 and viewer.text("step-line") == STEPS[-1][1], viewer.text("step-line"))
    viewer.press("crossbar", ",")
    expect(viewer.text("step-line") == STEPS[-2][1], viewer.text("step-line"))
    viewer.push("step-on")
    viewer.push("step-back")
    expect(viewer.text("step-line") == STEPS[-2][1], viewer.text("step-line"))
    viewer.press("", ESCAPE)
    expect(viewer.text("step-line") == "Slot 0: 3 pairs of 3. 1 queue waits, the longest 1 slot." and sentences(viewer) == [], viewer.text("step-line"))
    viewer.wait("location.hash === '#slot=0'", "the address without a step")


def test_step_of_address(viewer):
    """An address opens at a step; where a slot has fewer rounds, at the last step before it."""
    viewer.load("#slot=0&step=accept2")
    viewer.open_bytes("steps.journal", files.steps_journal())
    expect(viewer.text("step-line") == STEPS[5][1], viewer.text("step-line"))
    viewer.press("", RIGHT)
    said = viewer.text("step-line")
    expect(said == "Slot 1. There is no further round here. Round 2, grant: no output that is free is asked, so no further round adds a pair.", said)
    viewer.run("location.hash = '#slot=0&step=grant'")
    viewer.wait("document.getElementById('step-line').innerText.includes('Round 1, grant')", "a changed address")
    viewer.open_bytes("out.report", files.two_inputs_report())
    viewer.press("", ".")
    expect(not viewer.is_shown("step-on") and viewer.text("slot-fault") == "A slot has steps where a journal is shown.", viewer.text("slot-fault"))


def test_steps_beside_the_journal(viewer):
    """The steps are those of the rules, and the page says where the journal has another match."""
    viewer.load("#slot=5&step=pointers")
    viewer.open_bytes("changed.journal", files.change_match(files.two_inputs_journal(), 5, bytes([0, 0])))
    expect("input 1 accepts output 0" not in viewer.text("slot-text"), "a sentence of another step")
    expect("the grant pointer of output 0, level 0, moves from 1 to 0, one beyond input 1, which accepted" in sentences(viewer), f"{sentences(viewer)}")
    expect("The match is not that of iSLIP" in viewer.text("slot-text"), viewer.text("slot-text"))


BY_PROVED = "Each slot is decided by the proved scheduler."
BY_SCRIPT = "Each slot is decided by a script, not proved: "


def test_who_decides(viewer):
    """The proved scheduler decides where the browser runs it, and else a script; the page says which, and both make the same matches."""
    journal = files.steps_journal()
    viewer.load()
    expect(viewer.run("return SlotViewer.provedModule !== null"), "the browser does not run the proved scheduler")
    viewer.open_bytes("steps.journal", journal)
    expect(viewer.text("decided-by") == BY_PROVED, viewer.text("decided-by"))
    viewer.press("", ".")
    expect(viewer.text("decided-by") == f"{BY_PROVED} Its steps are told by a script, which makes the same match.", viewer.text("decided-by"))
    viewer.run("SlotViewer.page.first.walker.scheduler.inputs.fill(255)")
    viewer.run("SlotViewer.page.go(0)")
    viewer.wait("true", "a frame")
    expect("which makes another match" in viewer.text("decided-by"), viewer.text("decided-by"))
    viewer.load()
    viewer.run("SlotViewer.provedModule = null")
    viewer.open_bytes("steps.journal", journal)
    expect(viewer.text("decided-by").startswith(f"{BY_SCRIPT}this browser does not run"), viewer.text("decided-by"))
    expect(viewer.text("rules-line") == "Each match is that of iSLIP.", viewer.text("rules-line"))


def found_rule(viewer, title, suffix=""):
    """The page has found that another scheduler than iSLIP makes all matches, and decides by it."""
    said = viewer.text(f"rules-line{suffix}")
    expect(re.fullmatch(rf"Each match is that of {title}\. By iSLIP slot \d+ has another\.", said), said)
    chosen = viewer.run("return document.getElementById(arguments[0]).selectedOptions[0].text", f"scheduler{suffix}")
    expect(chosen == title, f"the list has {chosen} and not {title}")


def test_choice_of_scheduler(viewer):
    """A journal of another scheduler is decided by that one at once, unless the user chose one; then the page names it."""
    for name, title in (("firm", "FIRM"), ("rrm", "RRM")):
        viewer.load("#slot=3&step=pointers")
        viewer.open(files.DATA / f"check_{name}.journal")
        found_rule(viewer, title)
        expect(viewer.text("rules-line").endswith("By iSLIP slot 3 has another."), viewer.text("rules-line"))
        expect("The journal is lawful by " + title in viewer.text("summary"), viewer.text("summary"))
        expect(not viewer.is_shown("next-difference") and "is not that of" not in viewer.text("slot-text"), viewer.text("slot-text"))
        viewer.choose("scheduler", "islip")
        viewer.wait("SlotViewer.page.first.fitting !== null", "which scheduler fits")
        said = viewer.text("rules-line")
        expect("the match is not that of iSLIP, the first is slot 3. All matches are those of " + title in said, said)
        expect(viewer.lines("#rules-line button") == [f"Choose {title}"], said)
        viewer.run("document.querySelector('#rules-line button').click()")
        viewer.wait(f"document.getElementById('rules-line').innerText === 'Each match is that of {title}.'", title)
        viewer.choose("scheduler", "islip")
        viewer.open(files.DATA / "islip.journal")
        viewer.open(files.DATA / f"check_{name}.journal")
        expect("not that of iSLIP" in viewer.text("rules-line"), "what was chosen for a file stays")
    changed = bytearray((files.DATA / "check_rrm.journal").read_bytes())
    changed[0x1a:0x1e] = b"\xff\x00\x00\x00"
    viewer.open_bytes("nobody.journal", bytes(changed))
    expect("that of iSLIP" in viewer.text("rules-line"), viewer.text("rules-line"))
    expect("No other scheduler makes all these matches." in viewer.text("rules-line"), viewer.text("rules-line"))


def test_scheduler_of_a_long_run(viewer):
    """A long run whose last slot alone is not that of iSLIP: the pass over its slots ends by RRM."""
    viewer.load()
    viewer.open_bytes("long.journal", files.late_rrm())
    found_rule(viewer, "RRM")
    expect(viewer.text("rules-line").endswith(f"By iSLIP slot {files.LATE_SLOT} has another."), viewer.text("rules-line"))
    expect(viewer.run("return SlotViewer.page.timeline.analysis === SlotViewer.page.first.analysis"), "the time line is of the same pass")


def pointers_of(viewer, port):
    return viewer.run("return Array.from(SlotViewer.page.first.view.pointers[arguments[0]].slice(0, 4))", port)


def test_lecture_of_full_load(viewer):
    """Four ports, all queues full: pointers stay together under RRM, and part under iSLIP."""
    for name, made in (("islip", files.full_load_islip), ("rrm", files.full_load_rrm)):
        expect((LECTURE / f"full_load_{name}.journal").read_bytes() == made(), f"full_load_{name}.journal is another")
    viewer.load("#slot=1&step=grant")
    viewer.open(LECTURE / "full_load_rrm.journal")
    found_rule(viewer, "RRM")
    want = [f"output {output} grants input 1: the first asking input from its pointer 1 (level 0, unicast; inputs 0, 1, 2 and 3 ask)" for output in range(4)]
    expect(sentences(viewer) == want, f"{sentences(viewer)}")
    for slot in range(8):
        viewer.run("SlotViewer.page.goByUser(arguments[0])", slot)
        viewer.wait("true", "a frame")
        expect(pointers_of(viewer, "grant") == [slot % 4] * 4, f"slot {slot}: {pointers_of(viewer, 'grant')}")
    viewer.press("", ".")
    viewer.press("", ".")
    line = "the grant pointer of output 0, level 0, moves from 3 to 0, one beyond input 3, although the grant was refused"
    expect(line in sentences(viewer), f"{sentences(viewer)}")
    pairs = "return Array.from({ length: SlotViewer.page.run.slots }, (_, slot) => SlotViewer.page.run.matches.count(slot))"
    expect(viewer.run(pairs) == [1] * 64 + [0], "one pair in each of 64 slots")
    viewer.load()
    viewer.open(LECTURE / "full_load_islip.journal")
    expect(viewer.run(pairs) == [1, 2, 3] + [4] * 13 + [3, 2, 1] + [0], f"pairs: {viewer.run(pairs)}")
    expect(viewer.text("rules-line") == "Each match is that of iSLIP.", viewer.text("rules-line"))
    for slot in range(13):
        viewer.run("SlotViewer.page.goByUser(arguments[0])", slot)
        viewer.wait("true", "a frame")
        expect(len(viewer.table("Matched pairs")) == min(slot + 1, 4), f"slot {slot}: {viewer.table('Matched pairs')}")
        expect(slot < 3 or sorted(pointers_of(viewer, "grant")) == [0, 1, 2, 3], f"slot {slot}: {pointers_of(viewer, 'grant')}")


# For both runs of the page the grant pointers of level 1 of two ports, and how many pairs the slot has.
SEEN = """
SlotViewer.page.goByUser(arguments[0]);
SlotViewer.page.frame();
return SlotViewer.page.panes.map(({ view }) => [Array.from(view.pointers.grant.slice(2, 4)), view.pairs.length]);
"""


def test_synchronised(viewer):
    """An example of full queues under two schedulers: RRM has one pair in each slot, iSLIP two from the second slot on."""
    viewer.load()
    viewer.open(SYNCHRONISED / "islip.journal")
    viewer.open(SYNCHRONISED / "rrm.journal", field="file-2")
    expect(viewer.text("rules-line") == "Each match is that of iSLIP.", viewer.text("rules-line"))
    found_rule(viewer, "RRM", "-2")
    for slot in range(31, 47):
        islip, rrm = viewer.run(SEEN, slot)
        since = slot - 31
        expect(rrm == [[since % 2] * 2, 1], f"slot {slot}, RRM: {rrm}")
        expect(islip == ([[0, 0], 1] if since == 0 else [[since % 2, (since + 1) % 2], 2]), f"slot {slot}, iSLIP: {islip}")
    for name in ("pointer-level", "pointer-level-2"):
        viewer.choose(name, "1")
    viewer.shoot("synchronised")


def test_starving(viewer):
    """An example in which the queue from input 0 to output 0 waits from slot 1 on under RRM, as long as input 0 has others to serve."""
    viewer.load()
    viewer.open(STARVING / "rrm.journal", STARVING / "islip.journal")
    found_rule(viewer, "RRM")
    expect(viewer.text("rules-line-2") == "Each match is that of iSLIP.", viewer.text("rules-line-2"))
    for slot in range(1, 27):
        viewer.run("SlotViewer.page.goByUser(arguments[0]); SlotViewer.page.frame()", slot)
        wait = viewer.run("return SlotViewer.page.panes.map(({ view }) => view.wait(0, 0, 0, 0))")
        expect(wait == [slot % 26, {1: 1, 2: 2}.get(slot, 0)], f"slot {slot}: the queue waits {wait}")
    for slot in range(2, 26, 2):
        viewer.run("location.hash = `#slot=${arguments[0]}&step=accept`", slot)
        viewer.wait(f"document.getElementById('step-line').innerText.startsWith('Slot {slot}. Round 1, accept')", "a step")
        refused = viewer.lines("#slot-text .step-lines li")
        expect("input 0 refuses output 0" in refused, f"slot {slot}: {refused}")


def test_lecture_of_long_waits(viewer):
    """The request that waits nine slots in a run, and ten in a schedule."""
    for file, slot, wait, granted in ((LONG_WAIT / "expected/out.journal", 12, "9", [0, 0, 1, 1, 0, 2, 2, 2, 0]),
                                      (LONG_WAIT / "ten_slots.journal", 13, "10", [0, 0, 1, 1, 1, 0, 2, 2, 2, 0])):
        viewer.load(f"#slot={slot}")
        viewer.open(file)
        expect(viewer.table("Queues that wait")[0] == [wait, "0", "0", "0", "unicast"], f"{viewer.table('Queues that wait')}")
        viewer.press("", RIGHT)
        expect(["0", "0", "0", "unicast"] in viewer.table("Matched pairs"), f"{viewer.table('Matched pairs')}")
        for slot, source in enumerate(granted, 4):
            viewer.run("location.hash = `#slot=${arguments[0]}&step=grant`", slot)
            viewer.wait(f"document.getElementById('step-line').innerText.startsWith('Slot {slot}. Round 1, grant')", "a step")
            expect(any(line.startswith(f"output 0 grants input {source}: ") for line in sentences(viewer)), f"slot {slot}: {sentences(viewer)}")
            viewer.press("", ".")
            is_served = any(line.startswith(f"input {source} accepts output 0") for line in sentences(viewer))
            expect(is_served == (source > 0 and granted[slot - 3] != source), f"slot {slot}: {sentences(viewer)}")
