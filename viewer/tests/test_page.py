"""Tests of the viewer: keys, colours, room, names of controls, pictures that are saved, and a page that is served."""

import functools
import http.server
import re
import struct
import threading
import time
import xml.etree.ElementTree

from . import contrast, files
from .browser import DOWN, END, HOME, LEFT, RIGHT, TAB, UP, expect

LECTURE = files.ROOT / "viewer/lecture"


def test_keys(viewer):
    """Keys, playing, the time line and the crossbar."""
    viewer.load()
    viewer.open_bytes("out.journal", files.two_inputs_journal())
    for where, key, slot in (("", RIGHT, 1), ("", LEFT, 0), ("timeline", END, 10), ("timeline", HOME, 0), ("timeline", UP, 1)):
        viewer.press(where, key)
        expect(viewer.slot() == slot, f"{key!r} on {where or 'the page'} leads to slot {viewer.slot()} and not {slot}")
    expect(viewer.run("return document.getElementById('timeline').getAttribute('aria-valuenow')") == "1", "the slider's value")
    viewer.press("crossbar", RIGHT)
    viewer.press("crossbar", DOWN)
    expect(viewer.text("crosspoint").startswith("Input 1, output 0:"), viewer.text("crosspoint"))
    viewer.run("document.getElementById('speed').value = '20'; document.getElementById('speed').dispatchEvent(new Event('change'))")
    viewer.press("", " ")
    viewer.wait("SlotViewer.page.slot === 10 && !SlotViewer.page.player.isPlaying", "playing to the end")
    viewer.run("location.hash = '#slot=3'")
    viewer.wait("SlotViewer.page.slot === 3", "a changed address")
    viewer.run("location.hash = '#slot=5'; SlotViewer.putIntoAddress(SlotViewer.page)")
    viewer.wait("SlotViewer.page.slot === 5", "a changed address that the page writes over before it is told", seconds=60)
    viewer.click("timeline", viewer.run("return SlotViewer.page.timeline.scale(8.5)"))
    expect(viewer.slot() == 8, f"a click on the time line leads to slot {viewer.slot()}")


def test_home_and_end(viewer):
    """Home and End go to the first and the last slot, wherever the focus is but in a field."""
    viewer.load()
    viewer.open_bytes("out.journal", files.two_inputs_journal())
    viewer.run("document.querySelectorAll('details').forEach((part) => { part.open = true; })")
    for place in ("", "crossbar", "timeline", "play", "zoom-in", "save-svg"):
        for key, slot in ((END, 10), (HOME, 0)):
            viewer.press(place, key)
            expect(viewer.slot() == slot, f"{key!r} on {place or 'the page'} leads to slot {viewer.slot()}")


def test_slot_out_of_range(viewer):
    """A slot that is not there is told, by the field and by the address, and the page stays where it is."""
    viewer.load("#slot=11")
    viewer.open_bytes("out.journal", files.two_inputs_journal())
    expect(viewer.slot() == 10 and viewer.text("slot-fault") == "There is no slot 11; the slots are 0 to 10.", viewer.text("slot-fault"))
    viewer.choose("slot", "4")
    expect(viewer.slot() == 4 and not viewer.is_shown("slot-fault"), viewer.text("slot-fault"))
    for typed, said in (("11", "There is no slot 11; the slots are 0 to 10."), ("-1", '"-1" is no slot; the slots are 0 to 10.'),
                        ("last", '"last" is no slot; the slots are 0 to 10.'), ("", '"" is no slot; the slots are 0 to 10.')):
        viewer.choose("slot", typed)
        expect(viewer.slot() == 4 and viewer.text("slot-fault") == said, f"{typed!r}: {viewer.text('slot-fault')}")
    viewer.run("location.hash = '#slot=99'")
    viewer.wait("document.getElementById('slot-fault').innerText.includes('no slot 99')", "a slot of the address")
    viewer.press("", RIGHT)
    expect(viewer.slot() == 5 and not viewer.is_shown("slot-fault"), viewer.text("slot-fault"))


NAMELESS = """
return Array.from(document.querySelectorAll("button, select, input, summary, canvas, [tabindex]"))
    .filter((one) => one.parentElement !== document.getElementById("timeline"))
    .filter((one) => !one.textContent.trim() && !one.getAttribute("aria-label") && !(one.labels && one.labels.length)).map((one) => one.id || one.outerHTML)
"""

# What can be reached with the tab key: all that is shown and can be used, by id or name.
USABLE = """
const told = (one) => one.id || `${one.getAttribute("aria-label") || one.textContent}, ${(one.closest("section") || document.body).id}`;
const parts = Array.from(document.querySelectorAll("button, select, input, summary, [tabindex]")).filter((one) => one.checkVisibility() && !one.disabled);
if (arguments[0]) { parts[0].focus(); }
return arguments[0] ? parts.map(told) : told(document.activeElement);
"""


def test_names_and_tab(viewer):
    """Each control has a name, and all are reached with the tab key, in the order in which they stand."""
    viewer.load("#slot=5")
    viewer.open(files.DATA / "firm.journal", files.DATA / "firm.packets.csv")
    viewer.open(files.DATA / "rrm.journal", field="file-2")
    viewer.press("", ".")
    viewer.press("crossbar", RIGHT)
    expect(viewer.run(NAMELESS) == [], f"without a name: {viewer.run(NAMELESS)}")
    usable = viewer.run(USABLE, True)
    reached = usable[:1]
    for _ in usable[1:]:
        viewer.actions(viewer.driver).send_keys(TAB).perform()
        reached.append(viewer.run(USABLE, False))
    expect(reached == usable, f"reached {reached} and not {usable}")
    expect(len(set(usable)) == len(usable), f"names that are there twice: {usable}")
    viewer.press("", RIGHT)
    viewer.run("document.querySelector('#slot-text .scroll').focus()")
    viewer.actions(viewer.driver).send_keys(RIGHT).perform()
    viewer.wait("SlotViewer.page.slot === 7 && document.activeElement.closest('#slot-text')", "the focus in the slot's words after a key")
    return f"{len(usable)} controls"


def test_themes_and_sizes(viewer):
    """Light and dark by the system and by choice, and a narrow window."""
    paper = "return getComputedStyle(document.body).backgroundColor"
    seen = {}
    for theme in ("light", "dark"):
        viewer.driver.execute_cdp_cmd("Emulation.setEmulatedMedia", {"features": [{"name": "prefers-color-scheme", "value": theme}]})
        viewer.load("#slot=5")
        viewer.open_bytes("out.journal", files.two_inputs_journal())
        seen[theme] = viewer.run(paper)
        viewer.shoot(theme)
    expect(seen["light"] != seen["dark"], "dark is light")
    viewer.run("const theme = document.getElementById('theme'); theme.value = 'light'; theme.dispatchEvent(new Event('change'))")
    expect(viewer.run(paper) == seen["light"], "a theme by choice")
    levels = viewer.run("return ['row-level', 'pointer-level'].map((id) => Array.from(document.getElementById(id).options, (one) => one.value).join())")
    expect(levels == ["all,0,1,2,3,none", "0,1,2,3,none"], f"the lists of levels: {levels}")
    viewer.driver.execute_cdp_cmd("Emulation.setEmulatedMedia", {"features": []})
    viewer.load("#slot=5", 500, 800)
    viewer.open_bytes("out.journal", files.two_inputs_journal())
    expect(viewer.run("return document.documentElement.scrollWidth <= window.innerWidth"), "a narrow window scrolls sideways")
    viewer.shoot("narrow")


def test_contrast(viewer):
    """Texts and marks have the contrast of level AA in both themes; the page has the colours of style.css."""
    low = [f"{theme}: {what} {value:.2f}, at least {least}" for theme, what, value, least in contrast.contrasts() if value < least]
    expect(low == [], f"too low: {low}")
    for theme, colours in contrast.themes().items():
        viewer.load()
        viewer.choose("theme", theme)
        seen = viewer.run("return [getComputedStyle(document.body).color, getComputedStyle(document.body).backgroundColor]")
        want = [f"rgb({', '.join(str(int(colours[name][at:at + 2], 16)) for at in (1, 3, 5))})" for name in ("ink", "paper")]
        expect(seen == want, f"{theme}: {seen} and not {want}")
    return f"{len(contrast.contrasts())} contrasts"


def crossbar_size(viewer):
    left, top, right, bottom = viewer.place("crossbar")
    return right - left, bottom - top


def overflow(viewer):
    return viewer.run("return document.documentElement.scrollWidth > window.innerWidth")


# Ports, the window's width and height, and the least side of the crossbar.
ROOMS = ((4, 1920, 1080, 780), (4, 1400, 900, 600), (16, 1400, 900, 600), (64, 1400, 900, 600), (16, 1100, 700, 400))


def test_room(viewer):
    """The crossbar takes the room there is, and is seen whole with the controls while the page is not scrolled."""
    sizes = []
    for ports, width, height, least in ROOMS:
        viewer.load("#slot=3")
        viewer.view_port(width, height)
        viewer.open_bytes(f"{ports}.journal", files.turning_journal(ports))
        expect("The journal is lawful" in viewer.text("summary"), viewer.text("summary"))
        left, top, right, bottom = viewer.place("crossbar")
        expect(left >= 0 and right <= width and bottom <= height, f"{ports} ports in {width} by {height}: {left} to {right}, down to {bottom}")
        expect(min(right - left, bottom - top) >= least, f"{ports} ports in {width} by {height}: {right - left} by {bottom - top}")
        expect(not overflow(viewer), f"{ports} ports in {width} by {height}: the page scrolls sideways")
        sizes.append(f"{ports} ports {round(right - left)}")
        viewer.run("window.scrollTo(0, document.body.scrollHeight)")
        expect(viewer.run("return document.querySelector('.controls').getBoundingClientRect().top") == 0, "the controls are not in sight")
        viewer.run("window.scrollTo(0, 0)")
        viewer.shoot(f"room_{ports}_{width}")
    for ports in (4, 16, 64):
        viewer.load("#slot=3")
        viewer.view_port(1400, 900)
        for field in ("file", "file-2"):
            viewer.open_bytes(f"{ports}.journal", files.turning_journal(ports), field=field)
        for name in ("crossbar", "crossbar-2"):
            left, top, right, bottom = viewer.place(name)
            is_seen = left >= 0 and right <= 1400 and bottom <= 900 and right - left >= 500
            expect(is_seen, f"two runs of {ports} ports: {left} to {right}, down to {bottom}")
        expect(not overflow(viewer), f"two runs of {ports} ports: the page scrolls sideways")
    viewer.view_port(0, 0)
    return ", ".join(sizes)


REPORT_WITH_QUEUES = (files.ROOT / "examples/two_inputs/expected/out.report").read_bytes().replace(
    b"slot 0 ", b"queue 0>0:0u packets 2 dropped 0 cells 5 peak 4 slot 4\nqueue 1>0:0u packets 1 dropped 0 cells 3 peak 3 slot 2\ndeepest 4\nslot 0 ", 1,
)


def test_phone(viewer):
    """On a phone the controls stay in sight, and share the screen with the crossbar."""
    for width, height in ((390, 844), (360, 640)):
        for ports in (4, 16, 64):
            viewer.load("#slot=3&step=grant")
            viewer.view_port(width, height)
            viewer.open_bytes(f"{ports}.journal", files.turning_journal(ports))
            expect(not overflow(viewer), f"{width} by {height}: the page scrolls sideways")
            viewer.run("document.getElementById('crossbar').scrollIntoView({ block: 'end' })")
            viewer.wait("true", "a frame")
            controls = viewer.run("const box = document.querySelector('.controls').getBoundingClientRect(); return [box.top, box.bottom]")
            _, top, right, bottom = viewer.place("crossbar")
            is_seen = 0 <= controls[0] and controls[1] <= top and bottom <= height and right <= width
            expect(is_seen, f"{width} by {height}: controls {controls}, crossbar {top} to {bottom}")
            expect(min(crossbar_size(viewer)) >= 0.85 * width, f"{width} by {height}: {crossbar_size(viewer)}")
        viewer.shoot(f"phone_{width}")
        viewer.load()
        viewer.view_port(width, height)
        viewer.open_bytes("out.report", REPORT_WITH_QUEUES)
        expect("in slot" in viewer.text("summary") and not overflow(viewer), f"{width} by {height}: the table of queues has the page scroll sideways")
    viewer.run("window.scrollTo(0, document.body.scrollHeight)")
    expect(viewer.run("return document.querySelector('.controls').getBoundingClientRect().top") == 0, "the controls are not in sight")
    viewer.view_port(0, 0)


def test_settings_of_a_file(viewer):
    """The level of pointers is that of the file: another one has its own, and the first its old one again."""
    other = files.change_match(files.two_inputs_journal(), 5, bytes([0, 0]))
    level = "return document.getElementById('pointer-level').value"
    viewer.load()
    viewer.open_bytes("out.journal", files.two_inputs_journal())
    viewer.choose("pointer-level", "2")
    viewer.open_bytes("other.journal", other)
    expect(viewer.run(level) == "0", f"the other file has level {viewer.run(level)}")
    viewer.open_bytes("out.journal", files.two_inputs_journal(), field="file-2")
    expect(viewer.run(level) == "0" and viewer.run(level.replace("pointer-level", "pointer-level-2")) == "2", "two files side by side")
    viewer.choose("pointer-level", "3")
    expect(viewer.run("return SlotViewer.page.panes.map((pane) => pane.crossbar.settings.pointerLevel).join()") == "3,2", "each has its own")


def saved(viewer, button, name):
    """The bytes of a file that a button has the browser save."""
    file = viewer.folder / name
    viewer.push(button)
    end = time.monotonic() + 30
    while not file.exists() or file.stat().st_size == 0:
        expect(time.monotonic() < end, f"{name} was not saved: {sorted(one.name for one in viewer.folder.iterdir())}")
        time.sleep(0.05)
    return file.read_bytes()


def test_saved_pictures(viewer):
    """The current slot as an SVG and as a PNG picture, also at a step, of 3 and of 64 ports."""
    viewer.driver.execute_cdp_cmd("Browser.setDownloadBehavior", {"behavior": "allow", "downloadPath": str(viewer.folder)})
    viewer.load("#slot=0&step=accept")
    viewer.open_bytes("steps.journal", files.steps_journal())
    root = xml.etree.ElementTree.fromstring(saved(viewer, "save-svg", "steps.journal.slot_0.accept.svg"))
    title = root.find("{http://www.w3.org/2000/svg}title").text
    expect(title == "steps.journal, slot 0, Round 1, accept", title)
    texts = [one.text for one in root.iter("{http://www.w3.org/2000/svg}text")]
    expect(texts.count("outputs") == 1 and len(root) > 20, f"the picture's texts: {texts}")
    width, height = crossbar_size(viewer)
    data = saved(viewer, "save-png", "steps.journal.slot_0.accept.png")
    size = struct.unpack(">II", data[16:24])
    expect(data[:8] == b"\x89PNG\r\n\x1a\n" and abs(size[0] - width) <= 1 and abs(size[1] - height) <= 1, f"{size} and not {width} by {height}")
    (viewer.shots / "saved.png").write_bytes(data)
    viewer.open_bytes("64.journal", files.turning_journal(64))
    viewer.press("", "\ue00c")
    picture = saved(viewer, "save-svg", "64.journal.slot_0.svg").decode()
    xml.etree.ElementTree.fromstring(picture)
    expect(len(re.findall("<path", picture)) >= 128 and "data:image/png;base64," in picture, "64 pairs and the tints of what is posted")
    (viewer.shots / "saved.svg").write_text(picture)


class Quiet(http.server.SimpleHTTPRequestHandler):
    """Serves the repository without a line for each file."""

    def log_message(self, *_):
        pass


# Addresses that name files of the server, and the line that tells what is shown.
ADDRESSES = (
    ("#file=lecture/full_load_rrm.journal&scheduler=rrm&slot=6&step=grant", "Slot 6. Round 1, grant: 4 outputs grant."),
    ("#file=lecture/full_load_islip.journal&beside=lecture/full_load_rrm.journal&slot=3", "Slot 3: 4 pairs of 4. 12 queues wait, the longest 4 slots."),
    ("#file=tests/data/firm.journal&packets=tests/data/firm.packets.csv&scheduler=firm&slot=12",
     "Slot 12: 1 pair of 3. 5 queues wait, the longest 12 slots."),
    ("#file=../examples/synchronised/expected/islip.journal&beside=../examples/synchronised/expected/rrm.journal&scheduler=islip,rrm&pointers=1&slot=33",
     "Slot 33: 2 pairs of 2. 2 queues wait, the longest 1 slot."),
)


def test_served(viewer):
    """Served from the repository: examples by a button, and addresses that name files; from the disk neither."""
    viewer.load("#file=lecture/full_load_rrm.journal&slot=6&step=grant")
    viewer.wait("!document.getElementById('fault').hidden", "a fault")
    expect(not viewer.is_shown("examples") and "opened from the disk may not read files" in viewer.text("fault"), viewer.text("fault"))
    server = http.server.ThreadingHTTPServer(("127.0.0.1", 0), functools.partial(Quiet, directory=str(files.ROOT)))
    threading.Thread(target=server.serve_forever, daemon=True).start()
    page = f"http://127.0.0.1:{server.server_address[1]}/viewer/index.html"
    try:
        viewer.driver.get(page)
        viewer.wait("!document.getElementById('examples').hidden", "the examples")
        examples = viewer.run("return SlotViewer.EXAMPLES.map(({ files }) => Object.values(files))")
        listed = {file for paths in examples for file in paths}
        there = {f"../{file.relative_to(files.ROOT)}" for file in files.ROOT.glob("examples/**/*.journal")}
        there |= {f"lecture/{file.name}" for file in LECTURE.glob("*.journal")}
        expect(listed == there, f"listed and not there, or there and not listed: {listed ^ there}")
        for index, paths in enumerate(examples):
            viewer.choose("example", str(index))
            viewer.push("open-example")
            shown = [f"{path.split('/')[-1]}" for path in paths]
            viewer.wait(f"SlotViewer.page.panes.filter((pane) => pane.isOpen).map((pane) => pane.name).join() === '{','.join(shown)}'"
                        f" && SlotViewer.page.files.file === '{paths[0]}'", f"the example {paths}")
            viewer.wait_read(paths)
            expect(not viewer.is_shown("fault") and viewer.slot() == 0, viewer.text("fault"))
            if "synchronised" in paths[0]:
                viewer.wait("document.getElementById('rules-line-2').innerText === 'Each match is that of RRM.'", "the scheduler of the second run")
                levels = viewer.run("return ['', '-2'].map((suffix) => document.getElementById(`pointer-level${suffix}`).value)")
                expect(levels == ["1", "1"], f"the pointers of level {levels}")
        for fragment, line in ADDRESSES:
            viewer.driver.get("about:blank")
            viewer.driver.get(page + fragment)
            viewer.wait(f"document.getElementById('step-line') && document.getElementById('step-line').innerText === {line!r}", fragment)
            viewer.press("", RIGHT)
            viewer.wait("location.hash.startsWith('#file=') && location.hash.includes('slot=')", "the address names the file")
        viewer.driver.get("about:blank")
        viewer.driver.get(page + "#file=http://127.0.0.2/a.journal")
        viewer.wait("document.getElementById('fault').innerText.includes('not on the server of the page')", "a file elsewhere")
    finally:
        server.shutdown()
    return f"{len(examples)} examples"
