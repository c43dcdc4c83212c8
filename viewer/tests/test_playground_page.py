"""Tests of the playground's page: what is shown of the last slot and of the next, and what its buttons do."""

import dataclasses
import re

from tests.model.simulation.words import Job
from tests.module.playground_page import Page

from . import files
from .browser import RIGHT, expect
from .test_playground import FREE, STARVING, slots_of, sums_of, text_of

GROWING = files.ROOT / "examples/growth/expected/out.journal"

DELETE = "\ue017"
# Of full load of two ports, one round, all pointers at 0: the pairs of the first slots (docs/THROUGHPUT.md has them).
FULL = {"islip": ["0>0", "1>0, 0>1", "0>0, 1>1", "1>0, 0>1"], "rrm": ["0>0", "1>0", "0>1", "1>1"]}


class Playground(Page):
    """The page of the playground in the browser of the other tests."""

    def __init__(self, viewer, fragment="", width=1400, height=900):
        self.__dict__.update(vars(viewer))
        self.load(fragment, width, height)

    def settled(self):
        self.wait("SlotViewer.playground.job === null && !SlotViewer.playground.finding", "all slots are decided", 60)

    def many(self, presses, name="step"):
        """Presses a button so often, each time when the slots of the time before are decided."""
        for _ in range(presses):
            self.run("document.getElementById(arguments[0]).click()", name)
        self.settled()

    def texts(self, name):
        return self.lines_of(f"#crossbar .queues .{name}")

    def lines_of(self, selector):
        return self.run("return Array.from(document.querySelectorAll(arguments[0]), (one) => one.textContent)", selector)

    def count(self, selector):
        return self.run("return document.querySelectorAll(arguments[0]).length", selector)


def test_next_slot_apart(viewer):
    """A click shows the requests of the next slot without the match of the last one, which a button shows again."""
    page = Playground(viewer)
    page.set("ports", 3)
    expect(page.text("slot-title") == "Slot 0, not decided yet: 9 requests", page.text("slot-title"))
    page.many(2)
    expect(page.text("slot-title") == "Slot 1: 2 of 3 outputs fed" and page.count("#crossbar .pairs circle") == 2, page.text("slot-title"))
    # In slot 0 input 0 got output 0, in slot 1 inputs 1 and 0 got outputs 0 and 1; all others wait.
    expect(page.texts("wait") == ["1", "2", "2", "2", "2", "2", "2"], f"waits: {page.texts('wait')}")
    page.run("SlotViewer.playground.click(2, 2)")
    expect(page.text("slot-title") == "Slot 2, not decided yet: 8 requests", page.text("slot-title"))
    expect(page.count("#crossbar .pairs circle") == 0 and page.count("#crossbar .grants circle") == 0, "the match of the last slot is there")
    expect(page.count("#crossbar .asked") == 8 and page.texts("wait") == ["1", "2", "2", "2", "2", "2"], f"waits: {page.texts('wait')}")
    expect(page.text("crosspoint") == "Input 2, output 2, slot 2: not asked.", page.text("crosspoint"))
    page.push("show-last")
    expect(page.count("#crossbar .asked") == 9 and page.count("#crossbar .pairs circle") == 2, "the last slot")
    page.run("SlotViewer.playground.look(2, 2)")
    expect(page.text("crosspoint") == "Input 2, output 2, slot 1: asked, has waited 2 slots.", page.text("crosspoint"))
    page.run("SlotViewer.playground.look(0, 2)")
    expect(page.text("crosspoint") == "Input 0, output 2, slot 1: asked, has waited 2 slots, granted and refused in round 1.", page.text("crosspoint"))
    page.run("SlotViewer.playground.look(1, 0)")
    expect(page.text("crosspoint") == "Input 1, output 0, slot 1: asked, matched in round 1.", page.text("crosspoint"))
    page.shoot("playground_last")


def test_slots_back(viewer):
    """One slot back, with what was asked in it; and cells in queues, which keys and clicks add and take."""
    page = Playground(viewer)
    page.set("ports", 2)
    page.many(4)
    expect(page.slots() == FULL["islip"], f"{page.slots()}")
    page.many(3, "back")
    expect(page.slots() == FULL["islip"][:1] and page.text("slot-title") == "Slot 0: 1 of 2 outputs fed", page.text("slot-title"))
    page.many(1)
    expect(page.slots() == FULL["islip"][:2], f"{page.slots()}")
    page.many(5, "back")
    expect(page.slots() == [] and page.run("return document.getElementById('back').disabled"), f"{page.slots()}")
    page.set("queues", "cells")
    page.press("crossbar", RIGHT)
    for key in (" ", " ", DELETE, "\ue007"):
        page.press("crossbar", key)
    expect(page.text("crosspoint") == "Input 0, output 1, slot 0: asked, 3 cells in its queue.", page.text("crosspoint"))
    expect(page.texts("cells") == ["1▮", "3▮", "1▮", "1▮"], f"{page.texts('cells')}")
    page.many(2)
    # Input 0 gave a cell to output 0 and one to output 1, input 1 one to output 0.
    page.push("show-next")
    expect(page.texts("cells") == ["2▮", "1▮"], f"{page.texts('cells')}")
    page.push("load")
    expect(page.texts("cells") == ["1▮", "3▮", "1▮", "2▮"], f"{page.texts('cells')}")


def test_settings_keep_slots(viewer):
    """Another scheduler, other rounds or pointers: the slots are decided anew and the page says so; what is left can be brought back."""
    page = Playground(viewer)
    page.set("ports", 2)
    page.many(4)
    page.set("rule", "rrm")
    expect(page.slots() == FULL["rrm"], f"{page.slots()}")
    expect(page.text("told-text") == "4 slots decided anew, with the same requests: by RRM.", page.text("told-text"))
    page.set("rule", "islip")
    expect(page.slots() == FULL["islip"], f"{page.slots()}")
    page.set("rounds", 2)
    expect(page.slots()[0] == "0>0, 1>1" and len(page.slots()) == 4, f"{page.slots()}")
    page.set("rounds", 1)
    page.run("document.querySelectorAll('details').forEach((part) => { part.open = true; })")
    page.push("begin-apart")
    expect(page.slots() == ["0>0, 1>1", "1>0, 0>1"] * 2, f"from pointers that are apart: {page.slots()}")
    for given in ("0", "0 2", "0 1 1", "0 x"):
        page.set("begin-grant", given)
        expect(page.text("told-text").startswith(f'The pointers stay: "{given}" are no grant pointers of 2 ports'), page.text("told-text"))
    page.set("begin-grant", "0, 0")
    page.set("begin-accept", "0 0")
    expect(page.slots() == FULL["islip"], f"{page.slots()}")
    for deed in (lambda: page.set("ports", 5), lambda: page.push("again")):
        deed()
        expect(page.slots() == [] and "4 slots of before can be brought back" in page.text("told-text"), page.text("told-text"))
        page.push("bring-back")
        expect(page.slots() == FULL["islip"] and not page.is_shown("bring-back"), f"{page.slots()}")


def test_script_of_requests(viewer):
    """A text of two slots that come again: under RRM the queue from input 1 to output 0 is never served, under iSLIP it is."""
    page = Playground(viewer)
    page.run("document.getElementById('script-part').open = true")
    page.set("ports", 3)
    page.set("rule", "rrm")
    page.set("again-from", "0")
    page.push("script-use")
    expect(page.text("told-text") == "The requests of 2 slots are taken.", page.text("told-text"))
    page.many(30)
    pairs = page.run("return SlotViewer.playground.model.history.map(({ inputs, waits }) => [inputs[0], waits[3]])")
    # In odd slots output 0 grants input 1, which takes output 2.
    expect(pairs == [[0 if slot % 2 == 0 else FREE, 1 + slot] for slot in range(30)], f"{pairs}")
    page.set("rule", "islip")
    pairs = page.run("return SlotViewer.playground.model.history.filter(({ inputs }) => inputs[0] === 1).length")
    expect(pairs > 5, f"iSLIP serves it {pairs} times")
    ports, rounds, slots = slots_of((STARVING / "rrm.journal").read_bytes())
    page.run("document.getElementById('script').value = arguments[0]", text_of(ports, rounds, slots))
    page.set("again-from", "")
    page.push("script-use")
    page.many(5)
    expect(page.text("told-text") == "In slot 3 the match is another than that of the text.", page.text("told-text"))
    page.set("rule", "firm")
    said = "5 slots decided anew, with the same requests: by FIRM. In slot 3 the match is another than that of the text."
    expect(page.text("told-text") == said, page.text("told-text"))
    page.set("rule", "rrm")
    page.many(2, "many")
    expect("another" not in page.text("told-text"), page.text("told-text"))
    page.many(1, "script-write")
    written = page.run("return document.getElementById('script').value")
    expect(written.startswith(text_of(ports, rounds, slots)), written)
    page.run("document.getElementById('script').value = 'slot 0 requests 0>9:0u'")
    page.push("script-use")
    expect(page.text("told-text") == "The text is not taken: line 1: there is no port 9.", page.text("told-text"))
    page.shoot("playground_script")


def links_of_the_page():
    """The fragments of the links to the playground in docs/VIEWER.md."""
    return re.findall(r"playground\.html(#[^)`\s]+)", (files.ROOT / "docs/VIEWER.md").read_text())


def test_link_of_the_page(viewer):
    """A link opens what it was made of; a damaged one is refused in a line, and what was shown stays."""
    page = Playground(viewer)
    page.set("ports", 3)
    page.set("rule", "firm")
    page.many(3)
    page.run("SlotViewer.playground.click(1, 1)")
    slots = page.slots()
    page.push("link")
    link = page.run("return location.hash")
    expect(link.startswith("#ports=3&rounds=1&scheduler=firm&"), link)
    other = Playground(viewer, link)
    other.wait("document.getElementById('told-text').innerText === 'This is what the link holds.'", "the link")
    other.settled()
    expect(other.slots() == slots and other.run("return document.getElementById('rule').value") == "firm", f"{other.slots()}")
    other.push("show-next")
    expect(other.text("slot-title") == "Slot 3, not decided yet: 8 requests", other.text("slot-title"))
    other.run("location.hash = arguments[0]", link[:-1])
    other.wait("document.getElementById('told-text').innerText.startsWith('Nothing is shown of the link: the link is damaged')", "a damaged link")
    expect(other.slots() == slots, f"{other.slots()}")
    for hash_ in links_of_the_page():
        other = Playground(viewer, hash_)
        other.wait("document.getElementById('told-text').innerText === 'This is what the link holds.'", hash_)
    return f"{len(links_of_the_page())} links of docs/VIEWER.md"


def test_starving_link(viewer):
    """The first link of docs/VIEWER.md has the requests of examples/starving, whose matches an independent model made under both schedulers."""
    link = links_of_the_page()[0]
    page = Playground(viewer, link)
    page.wait("document.getElementById('told-text').innerText === 'This is what the link holds.'", link)
    for rule in ("rrm", "islip"):
        if rule == "islip":
            page.set("rule", rule)
        page.settled()
        _, _, slots = slots_of((STARVING / f"{rule}.journal").read_bytes())
        found = page.run("return SlotViewer.playground.model.history.map(({ inputs }) => Array.from(inputs))")
        expect(len(found) == 26, f"{len(found)} slots")
        same = [slot for slot in range(26) if found[slot] == slots[slot][1]]
        expect(same == list(range(26)) if rule == "rrm" else same[:4] == [0, 1, 2, 3], f"{rule}: {same}")
    text = ["journal ports 3 rounds 1", *(f"slot {slot} requests {words}" for slot, words in enumerate(
        ("0>0:0u", "0>0:0u 1>0:0u", "0>0,2:0u 1>0:0u", "0>0,1:0u 1>0:0u")))]
    shown = page.run("return ['script', 'again-from'].map((id) => document.getElementById(id).value)")
    expect(shown == ["\n".join(text) + "\n", "2"], f"the text of the link: {shown}")
    served = page.run("return SlotViewer.playground.model.history.filter(({ slot, inputs }) => slot > 0 && inputs[0] === 0).length")
    expect(served > 5, f"under iSLIP output 0 feeds from input 0 {served} times")


def test_growing_link(viewer):
    """The second link has the packets of examples/growth, whose matches an independent model made: a queue grows by a cell in each period."""
    link = links_of_the_page()[1]
    page = Playground(viewer, link)
    page.wait("document.getElementById('told-text').innerText === 'This is what the link holds.'", link)
    page.settled()
    _, _, slots = slots_of(GROWING.read_bytes())
    found = page.run("return SlotViewer.playground.model.history.map(({ inputs }) => Array.from(inputs))")
    expect(found == [inputs for _, inputs in slots[:70]], "other matches than those of the example")
    cells = page.run("return SlotViewer.playground.model.history.map(({ cells }) => cells[0])")
    expect(cells[6::7] == list(range(1, 11)), f"{cells}")


# Chooses another scheduler, and before all slots are decided by it presses a button, and another that stops.
CHOOSE_AND_STOP = """
const by = (id) => document.getElementById(id);
by("rule").value = "rrm";
by("rule").dispatchEvent(new Event("change"));
by("step").click();
const said = by("told-text").innerText;
by("stop").click();
return [said, by("stop").checkVisibility()];
"""


def test_long_work_stops(viewer):
    """64 ports, 64 rounds and 1,500 slots: the page answers while they are decided anew, and stops; then nothing has changed."""
    page = Playground(viewer)
    for name, value in (("ports", 64), ("rounds", 64)):
        page.set(name, value)
    page.run("const { model } = SlotViewer.playground; while (model.slot < 1500) { model.step(); } SlotViewer.playground.draw()")
    said, is_shown = page.run(CHOOSE_AND_STOP)
    expect(said == "Slots are being decided: wait, or press Stop." and is_shown, said)
    page.settled()
    expect(page.text("told-text") == "Stopped: nothing has changed." and not page.is_shown("stop"), page.text("told-text"))
    expect(page.run("return [SlotViewer.playground.model.slot, document.getElementById('rule').value]") == [1500, "islip"], "other slots")
    page.set("rule", "rrm")
    page.wait("SlotViewer.playground.job === null", "the slots by RRM", 60)
    expect("1500 slots decided anew" in page.text("told-text") and page.table("Slots")[0][:3] == ["1499", "64", "64"], page.text("told-text"))
    page.push("many")
    page.settled()
    expect(len(page.table("Rounds")) == 64, f"{len(page.table('Rounds'))} rounds")
    page.run("const { model } = SlotViewer.playground; while (model.slot < 1995) { model.step(); }")
    page.push("many")
    page.settled()
    expect(page.run("return SlotViewer.playground.model.slot") == 2000, "more slots than the page keeps")
    expect(page.text("told-text") == "Here are 2000 slots, the most that the page keeps.", page.text("told-text"))


def test_random_requests(viewer):
    """A seed gives the same random requests again."""
    page = Playground(viewer)
    made = []
    for seed in (1, 2, 1):
        page.set("pattern", "random")
        page.set("seed", seed)
        made.append(page.run("return Array.from(SlotViewer.playground.model.cells).join('')"))
    expect(made[0] == made[2] != made[1] and page.is_shown("share"), f"{made}")
    page.set("pattern", "full")
    expect(not page.is_shown("seed"), "the seed stands beside other requests")


def sums_line(job):
    """What the page tells of the cells of a simulation."""
    sums = sums_of(job)
    mean = f"{sums['delays']} / {sums['departed']} = {sums['delays'] / sums['departed']:.2f}"
    return (f"{sums['arrived']} cells came: {sums['departed']} left, {sums['waiting']} wait, {sums['dropped']} dropped at full queues. "
            f"Mean delay so far: {mean} slots.")


def test_traffic_of_the_page(viewer):
    """Made traffic, decided by the scheduler of the page: its numbers are those of `simulate`, also after a slot back, and in a link."""
    page = Playground(viewer)
    for name, value in (("rounds", 4), ("traffic", "unbalanced"), ("traffic-load", "0.987654"), ("traffic-weight", "0.25"), ("traffic-burst", 8),
                        ("traffic-seed", 77), ("traffic-depth", 12)):
        page.set(name, value)
        page.settled()
    job = Job(77, 0, 4, load=987_654, burst=8, pattern="unbalanced", weight=250_000, depth=12)
    for rule in ("islip", "firm", "rrm"):
        page.set("rule", rule)
        page.settled()
        page.run("const { model } = SlotViewer.playground; while (model.slot < 999) { model.step(); }")
        for slots, button in ((1000, "step"), (999, "back")):
            page.many(1, button)
            told, want = page.text("sums-line"), sums_line(dataclasses.replace(job, scheduler=rule, slots=slots))
            expect(told == want, f"{rule}, {slots} slots: {told}, not {want}")
    page.push("link")
    link = page.run("return location.hash")
    expect("&traffic=unbalanced&load=987654&weight=250000&burst=8&seed=77&depth=12&slots=999&" in link, link)
    other = Playground(viewer, link)
    other.wait("document.getElementById('told-text').innerText === 'This is what the link holds.'", "the link")
    other.settled()
    expect(other.text("sums-line") == want and other.run("return document.getElementById('traffic-load').value") == "0.987654", "another state")
    other.push("again")
    other.push("play")
    other.wait("SlotViewer.playground.model.slot > 2", "slots that are played", 60)
    other.push("play")
    expect(not other.run("return SlotViewer.playground.player.isPlaying"), "slots are still played")
    other.set("traffic", "none")
    expect(not other.is_shown("traffic-part") and other.text("slot-title") == "Slot 0, not decided yet: 16 requests", other.text("slot-title"))


# Drops a text file on the page.
DROP = """
const transfer = new DataTransfer();
transfer.items.add(new File([arguments[0]], "requests.txt"));
document.body.dispatchEvent(new DragEvent("drop", { dataTransfer: transfer, bubbles: true, cancelable: true }));
"""


def test_random_script(viewer):
    """100 slots of random requests put cells into queues: what came is what was served and what is left. A text that is dropped is shown."""
    page = Playground(viewer)
    page.run("document.getElementById('script-part').open = true")
    page.wait("document.getElementById('share').checkVisibility()", "the share beside the text")
    page.set("queues", "cells")
    page.set("pattern", "none")
    page.set("share", 24)
    page.set("seed", 7)
    page.push("script-random")
    text = page.run("return document.getElementById('script').value")
    came = sum(len(word.split(">")[1].split(",")) for word in text.split() if word.endswith(":0u"))
    page.push("script-use")
    page.many(5, "many")
    served = page.run("return SlotViewer.playground.model.history.reduce((sum, { count }) => sum + count, 0)")
    left = page.run("return SlotViewer.playground.model.cells.reduce((sum, count) => sum + count, 0)")
    expect(300 < came < 470 and served + left == came and served > 250, f"{came} came, {served} served, {left} left")
    page.push("script-random")
    expect(page.run("return document.getElementById('script').value") == text, "the same seed gives another text")
    page.run(DROP, "slot 0 requests 1>1:0u\n")
    page.wait("document.getElementById('script').value === 'slot 0 requests 1>1:0u\\n'", "the text that was dropped")
    page.push("script-use")
    page.many(1)
    expect(page.slots() == ["1>1"], f"{page.slots()}")


def test_playground_room(viewer):
    """The crossbar takes the width that it has, and nothing scrolls sideways, in light and dark and on a phone."""
    sizes = []
    for width, height, least in ((1400, 900, 560), (1100, 800, 460), (390, 844, 340)):
        page = Playground(viewer, width=width, height=height)
        page.view_port(width, height)
        page.many(3)
        left, _, right, _ = page.place("crossbar")
        expect(right - left >= least and right <= width, f"{width} by {height}: {left} to {right}")
        expect(not page.run("return document.documentElement.scrollWidth > window.innerWidth"), f"{width} scrolls sideways")
        page.run("document.querySelectorAll('details').forEach((one) => { one.open = true; })")
        high = page.run("return Array.from(document.querySelectorAll('details button'), (one) => one.offsetHeight)")
        expect(high and max(high) < 45, f"{width} by {height}: buttons of {high} pixels")
        cut = page.run("return Array.from(document.querySelectorAll('.scroll')).filter((one) => one.scrollWidth > one.clientWidth).map((one) => one.innerText)")
        expect(not cut, f"{width} by {height}: tables are cut: {cut}")
        for theme in ("light", "dark"):
            page.set("theme", theme)
            page.shoot(f"playground_{width}_{theme}")
        sizes.append(str(round(right - left)))
    page.view_port(0, 0)
    return ", ".join(sizes)
