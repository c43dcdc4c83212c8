"""Tests of the viewer: reports and journals, good and faulty, small and large."""

import pathlib
import subprocess
import tempfile
import time

from launcher import there
from tests.disk.sixteen_ports import WORDS, job_files

from . import files
from .browser import LEFT, RIGHT, expect
from .test_rules import judge
from .test_steps import found_rule

ROOT = pathlib.Path(__file__).resolve().parents[2]
PROGRAM = there.program(ROOT)
# The most processor time that one drawing of a slot of 64 ports may take, in milliseconds.
MOST_DRAWING_MS = 250
MOST_LINES = 100  # Of a table of the page.
USAGE_FAULT = 2


def test_faults(viewer):
    """Files that are no report and no journal, or are cut, get a line, and the page is not blank."""
    good = files.one_slot_journal()
    changed = lambda at, byte: good[:at] + bytes([byte]) + good[at + 1:]
    for data, place in ((good[:19], 19), (good + b"\0", 20), (changed(0, 0x55), 0), (changed(4, 65), 4), (changed(5, 0), 5),
                        (changed(7, 1), 6), (changed(11, 0), 8), (changed(13, 2), 13), (changed(17, 8), 17), (changed(16, 2), 16)):
        answer = judge(viewer, data)
        expect(isinstance(answer, str) and answer.startswith(f"bad at byte {place}:"), f"{data.hex()}: {answer}")
    expect(judge(viewer, changed(13, 1))[2] == "slot 0 no end", "more to come in the last slot")
    expect(judge(viewer, good[:16] + bytes(4))[2] == "slot 0 output 0", "a match that nobody asked for")
    report = files.two_inputs_report()
    capture = (ROOT / "examples/two_inputs/a.pcap").read_bytes()
    for name, data, words in (("empty", b"", "the file is empty"), ("a.pcap", capture, "it is a capture"),
                              ("text", b"hello\n", "no report"), ("cut.report", report[:-30], "the report is cut"),
                              ("cut_summary.report", report[:40], "line 5: the report is cut"),
                              ("changed.report", report.replace(b"0>0:0u", b"2>0:0u", 1), "an input is 2, and may be 0 to 1"),
                              ("cut.journal", good[:17], "bad at byte 17: the journal is cut"),
                              ("longer.report", report + b"x", "this is no line of a report")):
        viewer.load()
        viewer.open_bytes(name, data)
        text = viewer.text("fault")
        expect(text.startswith(f"{name} cannot be shown: ") and words in text, f"{name}: {text}")
        expect(viewer.is_shown("welcome"), f"{name}: the page is blank")
    viewer.shoot("fault")
    longer = report + files.reference_lines()
    whole = (report.index(b"slot 0 "), len(report))
    for cut in range(len(longer)):
        answer = viewer.run(READ_REPORT, longer[:cut].decode())
        expect((answer is None) == (cut in whole), f"a report cut at {cut}: {answer}")
    return "18 files, and each cut of a report"


DROP = """
const transfer = new DataTransfer();
transfer.items.add(new File([arguments[0]], "dropped.report"));
document.dispatchEvent(new DragEvent("drop", { dataTransfer: transfer, bubbles: true, cancelable: true }));
"""

READ_REPORT = """
const generator = SlotViewer.readReport(new TextEncoder().encode(arguments[0]));
try {
    while (!generator.next().done) {}
    return null;
} catch (fault) {
    if (!(fault instanceof SlotViewer.FileFault)) { throw fault; }
    return fault.message;
}
"""


def test_report(viewer):
    """A report shows its slot lines, in the table, in the crossbar's name and in the address."""
    viewer.load("#slot=4")
    viewer.open_bytes("out.report", files.two_inputs_report())
    expect(viewer.slot() == 4, "the slot of the address")
    expect(viewer.table("Matched pairs") == [["0", "0", "0", "unicast"]], f"slot 4: {viewer.table('Matched pairs')}")
    viewer.press("", RIGHT)
    expect(viewer.slot() == 5 and "input 1 feeds output 0, level 0, unicast" in viewer.text("spoken"), viewer.text("spoken"))
    viewer.wait("location.hash === '#slot=5'", "the address")
    expect(["packets", "3"] in viewer.table("Summary"), "the summary")
    expect(viewer.table("Outputs") == [["0", "3", "8"], ["1", "0", "0"]], "the outputs")
    viewer.run(DROP, files.two_inputs_report().decode().replace("ports 2", "ports 3"))
    viewer.wait("!document.getElementById('fault').hidden", "a dropped file")
    bare = b"".join(line for line in files.two_inputs_report().splitlines(True) if not line.startswith(b"slot "))
    first_slot = 1 + bare.count(b"\n")
    expect(f"dropped.report cannot be shown: line {first_slot}: " in viewer.text("fault"), viewer.text("fault"))
    expect(viewer.is_shown("crossbar"), "the run before a faulty file stays")
    for slots in (files.two_inputs_report(), bare):
        viewer.open_bytes("reference.report", slots + files.reference_lines())
        lines = [["0", "9", "10", "1", "3"], ["1", "0", "0", "0", "0"]]
        expect(viewer.table("Output-queued reference") == lines, f"{viewer.table('Output-queued reference')}")
        viewer.shoot("reference")
    viewer.open_bytes("bare.report", bare)
    expect("no slot lines" in viewer.text("notice") and not viewer.is_shown("crossbar"), "a report without slot lines")
    expect(["cells", "8"] in viewer.table("Summary"), "its summary")
    queues = b"queue 0>0:0u packets 3 dropped 0 cells 8 peak 2 slot 4294967294\ndeepest 2\n"
    long = bare.replace(b"\nslots 11\n", b"\nslots 4294967295\n") + queues + files.reference_lines()
    viewer.open_bytes("long.report", long)
    expect("a long run, which has no slots to step through" in viewer.text("notice"), "a report of a long run")
    expect(["slots", "4294967295"] in viewer.table("Summary") and not viewer.is_shown("crossbar"), "its summary")
    expect("4294967294" in str(viewer.table("Queues")), f"its queues: {viewer.table('Queues')}")
    expect(viewer.table("Output-queued reference") == lines, "its reference")


def test_journal(viewer):
    """A journal shows rows, pointers and waits, and a match against the rules."""
    viewer.load("#slot=5")
    viewer.open_bytes("out.journal", files.two_inputs_journal())
    expect(viewer.table("Queues that wait") == [["1", "0", "0", "0", "unicast"]], f"waits: {viewer.table('Queues that wait')}")
    expect("Each match is that of iSLIP" in viewer.text("summary"), viewer.text("summary"))
    expect("The journal is lawful" in viewer.text("summary"), viewer.text("summary"))
    expect(["longest wait of level 0", "1"] in viewer.table("Summary"), "the longest wait")
    viewer.run("document.querySelectorAll('details').forEach((part) => { part.open = true; })")
    viewer.wait("document.querySelector('[aria-label^=Pointers]')", "the pointers")
    pointers = viewer.table("Pointers of level 0")
    expect(pointers == [["0", "1", "1"], ["1", "0", "1"]], f"pointers before slot 5: {pointers}")
    viewer.shoot("two_inputs")
    # Here output 0 is fed by input 0 in slot 5, and it is the turn of input 1.
    changed = files.change_match(files.two_inputs_journal(), 5, bytes([0, 0]))
    viewer.load("#slot=0")
    viewer.open_bytes("changed.journal", changed)
    viewer.run("document.getElementById('next-difference').click()")
    viewer.wait("SlotViewer.page.slot === 5", "the slot against the rules")
    expect("output 0: the journal has input 0, level 0, unicast; by iSLIP it is input 1" in viewer.text("slot-text"), viewer.text("slot-text"))
    expect("slot 5 output 0" in viewer.text("summary"), viewer.text("summary"))
    viewer.shoot("against_the_rules")


def test_examples(viewer):
    """Each report and journal of the examples opens, and a report's slots are those of its lines; a long run has none."""
    outputs = sorted(ROOT.glob("examples/*/expected/*.report")) + sorted(ROOT.glob("examples/*/expected/*.journal"))
    for file in outputs:
        viewer.load()
        viewer.open(file)
        expect(not viewer.is_shown("fault") and viewer.is_shown("run"), f"{file}: {viewer.text('fault')}")
        if file.suffix == ".journal":
            if file.stem == "rrm":
                found_rule(viewer, "RRM")
            expect("The journal is lawful" in viewer.text("summary"), f"{file}: {viewer.text('summary')}")
        else:
            lines = [line for line in file.read_text().splitlines() if line.startswith("slot ")]
            found = viewer.run(SLOT_LINES)
            expect(found == lines, f"{file}: the slots are not those of the lines")
            expect(lines or "no slots to step through" in viewer.text("notice"), f"{file}: {viewer.text('notice')}")
        viewer.shoot(f"example_{file.parts[-3]}_{file.name.replace('.', '_')}")
    return f"{len(outputs)} files"


SLOT_LINES = """
const run = SlotViewer.page.run;
if (run.matches === null) {
    return [];
}
return Array.from({ length: run.slots }, (_, slot) => {
    const pairs = run.matches.pairs(slot).map(({ input, output, level, kind }) => ` ${input}>${output}:${level}${"um"[kind]}`);
    return `slot ${slot} used ${run.used[slot]} first ${run.first[slot]}${pairs.join("")}`;
});
"""


def test_program(viewer):
    """Files that the program writes now, of 16 ports with unicast and multicast of all levels."""
    if not PROGRAM.is_file():
        return "skipped, no program is there"
    with tempfile.TemporaryDirectory() as folder:
        for name, data in job_files().items():
            pathlib.Path(folder, name).write_bytes(data)
        words = [PROGRAM, "run", "--slots", "--journal", "--reference", "--queues", "--packets", *WORDS]
        printed = subprocess.run(words, cwd=folder, check=True, stdout=subprocess.PIPE, text=True).stdout
        report = pathlib.Path(folder, "out.report")
        viewer.load()
        viewer.open(report)
        lines = [line for line in report.read_text().splitlines() if line.startswith("slot ")]
        expect(viewer.run(SLOT_LINES) == lines, "the slots are not those of the lines")
        reference = [line.split()[1::2] for line in report.read_text().splitlines() if line.startswith("reference ")]
        expect(viewer.table("Output-queued reference") == reference, f"{viewer.table('Output-queued reference')}")
        queues = sum(line.startswith("queue ") for line in report.read_text().splitlines())
        shown = len(viewer.table("Queues"))
        expect(0 < shown == min(queues, MOST_LINES), f"{queues} lines of queues, and {shown} in the table")
        deepest = viewer.run("return SlotViewer.page.first.run.deepest")
        viewer.load()
        viewer.open(pathlib.Path(folder, "out.journal"), pathlib.Path(folder, "out.packets.csv"))
        found = viewer.run("return SlotViewer.page.first.queues.deepest")
        expect(found == deepest, f"the deepest queue holds {deepest} cells by the report, {found} by the packets file")
    expect("The journal is lawful" in viewer.text("summary"), viewer.text("summary"))
    longest = printed.splitlines()[-1].split()[1:]
    rows = [[f"longest wait of level {level}", wait] for level, wait in enumerate(longest)]
    expect(viewer.table("Summary")[-4:] == rows, f"{viewer.table('Summary')[-4:]} and not {rows}")
    viewer.shoot("sixteen_ports")
    return f"{len(lines)} slots, longest waits {' '.join(longest)}"


def test_program_schedulers(viewer):
    """Journals that the program writes of the same job under FIRM and RRM: found to be of these, with the waits that it prints."""
    if not PROGRAM.is_file():
        return "skipped, no program is there"
    with tempfile.TemporaryDirectory() as folder:
        for name, data in job_files().items():
            pathlib.Path(folder, name).write_bytes(data)
        for name, title in (("firm", "FIRM"), ("rrm", "RRM")):
            words = [PROGRAM, "run", "--journal", "--scheduler", name, *WORDS]
            ended = subprocess.run(words, cwd=folder, stdout=subprocess.PIPE, stderr=subprocess.PIPE, text=True)
            if ended.returncode == USAGE_FAULT:
                return "skipped, the program does not take --scheduler"
            expect(ended.returncode == 0, ended.stderr)
            viewer.load()
            viewer.open(pathlib.Path(folder, "out.journal"))
            found_rule(viewer, title)
            expect(f"The journal is lawful by {title}" in viewer.text("summary"), viewer.text("summary"))
            rows = [[f"longest wait of level {level}", wait] for level, wait in enumerate(ended.stdout.splitlines()[-1].split()[1:])]
            expect(viewer.table("Summary")[-4:] == rows, f"{viewer.table('Summary')[-4:]} and not {rows}")
    return None


def test_heavy(viewer):
    """64 ports and 100,000 slots: read, gone through, and each slot drawn at once."""
    viewer.load()
    start = time.monotonic()
    viewer.open_bytes("heavy.journal", files.heavy_journal())
    taken = time.monotonic() - start
    expect("The journal is lawful" in viewer.text("summary"), viewer.text("summary"))
    expect(["longest wait of level 3", str(files.HEAVY_SLOTS - 2)] in viewer.table("Summary"), f"waits: {viewer.table('Summary')}")
    slots = (files.HEAVY_SLOTS - 3, 0, files.HEAVY_SLOTS // 2 + 7, files.HEAVY_SLOTS // 2 + 8, 12345, 99_000)
    times = [viewer.drawing_ms(slot) for slot in slots]
    expect(viewer.table("Queues that wait")[0] == ["99001", "0", "0", "3", "unicast"], f"waits: {viewer.table('Queues that wait')[:1]}")
    viewer.shoot("heavy")
    for _ in range(4):
        viewer.run("document.getElementById('zoom-in').click()")
    viewer.driver.set_window_rect(0, 0, 1000, 900)
    viewer.wait("SlotViewer.page.timeline.width === document.getElementById('timeline').clientWidth", "a new width")
    from_slot, to_slot = viewer.run("return SlotViewer.page.timeline.seen()")
    expect(from_slot <= 99_000 < to_slot and abs(to_slot - from_slot - files.HEAVY_SLOTS / 256) < 1, f"seen: {from_slot} to {to_slot}")
    viewer.shoot("heavy_zoomed")
    expect(max(times) <= MOST_DRAWING_MS, f"drawing takes {[round(one) for one in times]} ms")
    return f"read and gone through in {taken:.0f} s, drawn in {max(times):.0f} ms at most"
