"""The playground page in a headless browser, for tests/run_module."""

import pathlib

from viewer.tests.browser import Viewer, expect

PAGE = (pathlib.Path(__file__).resolve().parents[2] / "viewer/playground.html").as_uri()
RIGHT, DOWN = "\ue014", "\ue015"
WITHOUT_WEBASSEMBLY = "delete globalThis.WebAssembly;"


class Page(Viewer):
    """The playground."""

    def load(self, fragment="", width=1400, height=900):
        self.driver.set_window_rect(0, 0, width, height)
        self.driver.get("about:blank")
        self.driver.get(PAGE + fragment)
        self.wait("globalThis.SlotViewer && SlotViewer.playground", "the page", 30)

    def set(self, name, value):
        """Gives a field another value, as a user does."""
        self.run("""const field = document.getElementById(arguments[0]);
            field[field.type === 'checkbox' ? 'checked' : 'value'] = arguments[1];
            field.dispatchEvent(new Event('change'));""", name, value)

    def push(self, name):
        self.driver.find_element("id", name).click()

    def only(self, *pairs):
        """Asks for these pairs alone."""
        self.set("pattern", "none")
        self.run("arguments[0].forEach(([input, output]) => SlotViewer.playground.click(input, output))", pairs)

    def slots(self):
        """The matches so far, the first slot first, as the page lists them."""
        return [row[3] for row in reversed(self.table("Slots"))]


def test_full_load(page):
    """All queues full in one round: in each slot one output more gets a pointer of its own, until all have one."""
    page.load()
    for ports, wanted in (
        (2, ["0>0", "1>0, 0>1", "0>0, 1>1", "1>0, 0>1"]),
        (3, ["0>0", "1>0, 0>1", "2>0, 1>1, 0>2", "0>0, 2>1, 1>2"]),
    ):
        page.set("ports", ports)
        for _ in wanted:
            page.push("step")
        expect(page.slots() == wanted, f"{ports} ports: {page.slots()}")
    page.push("many")
    expect(len(page.slots()) == 24 and page.text("history-line").startswith("24 decided"), page.text("history-line"))
    page.push("again")
    expect(page.slots() == [] and page.text("slot-title") == "Slot 0, not decided yet: 9 requests", page.text("slot-title"))
    page.shoot("full_load")


def test_rounds(page):
    """Two rounds of two ports: the second adds a pair and moves no pointer."""
    page.load()
    page.set("ports", 2)
    page.set("rounds", 2)
    page.push("step")
    wanted = [["1", "0 to 0, 1 to 0", "0 takes 0"], ["2", "1 to 1", "1 takes 1"]]
    expect(page.table("Rounds") == wanted, f"{page.table('Rounds')}")
    expect(page.table("Pointers") == [["0", "0 to 1", "0 to 1"], ["1", "0", "0"]], f"{page.table('Pointers')}")
    page.shoot("rounds")


def test_rules(page):
    """Outputs 0 and 1 grant input 1, which takes output 0: then output 1 points on to 0, to input 1 under FIRM, to 2 under RRM."""
    for rule, after in (("islip", "0"), ("firm", "0 to 1"), ("rrm", "0 to 2")):
        page.load()
        page.set("ports", 3)
        page.set("rule", rule)
        page.only((1, 0), (1, 1))
        page.push("step")
        expect(page.table("Rounds") == [["1", "0 to 1, 1 to 1", "1 takes 0"]], f"{page.table('Rounds')}")
        pointers = [["0", "0 to 2", "0"], ["1", after, "0 to 1"], ["2", "0", "0"]]
        expect(page.table("Pointers") == pointers, f"{rule}: {page.table('Pointers')}")


def test_requests(page):
    """Patterns, clicks and keys; and requests that go off when they are served."""
    page.load()
    count = "return SlotViewer.playground.model.cells.reduce((sum, one) => sum + one, 0)"
    page.set("ports", 5)
    for pattern, wanted in (("full", 25), ("diagonal", 5), ("hot", 5), ("none", 0)):
        page.set("pattern", pattern)
        expect(page.run(count) == wanted, f"{pattern}: {page.run(count)}")
    frame = page.driver.find_element("id", "crossbar")
    width = frame.size["width"]
    cell = (width - 36) / 5
    offset = [round(34 + port * cell + cell / 2 - width / 2) for port in (3, 1)]
    page.actions(page.driver).move_to_element_with_offset(frame, *offset).click().perform()
    expect(page.text("crosspoint") == "Input 1, output 3, slot 0: asked.", page.text("crosspoint"))
    for key in (RIGHT, DOWN, " "):
        page.press("crossbar", key)
    expect(page.text("crosspoint") == "Input 2, output 4, slot 0: asked.", page.text("crosspoint"))
    page.set("queues", "cells")
    page.push("step")
    page.push("step")
    expect(page.slots() == ["1>3, 2>4", "none"] and page.run(count) == 0, f"{page.slots()}")


def test_many_ports(page):
    page.load()
    for name, value in (("ports", 64), ("rounds", 64), ("pattern", "full"), ("theme", "dark")):
        page.set(name, value)
    page.push("step")
    expect(page.text("slot-title") == "Slot 0: 64 of 64 outputs fed", page.text("slot-title"))
    page.shoot("many_ports")
    for field, value, kept in (("ports", 65, "64"), ("ports", -3, "1"), ("rounds", 1000, "64"), ("rounds", "", "1")):
        page.set(field, value)
        expect(page.run("return document.getElementById(arguments[0]).value", field) == kept, f"{field} {value}")


def test_page(page):
    """Each control has a name, and a narrow window does not scroll sideways."""
    page.load("", 500, 800)
    nameless = page.run("""return Array.from(document.querySelectorAll('button, select, input, [tabindex]'))
        .filter((one) => !one.textContent.trim() && !one.getAttribute('aria-label') && !(one.labels && one.labels.length)).map((one) => one.id)""")
    expect(nameless == [], f"without a name: {nameless}")
    expect(page.run("return document.documentElement.scrollWidth <= window.innerWidth"), "a narrow window scrolls sideways")
    page.shoot("narrow")


# The same requests, clicked from slot to slot at random, decided by both.
BOTH = """
const [module, kinds] = [SlotViewer.playground.model.module, SlotViewer.Playground];
const finish = (generator) => { let step; do { step = generator.next(); } while (!step.done); return step.value; };
const told = (model) => JSON.stringify(model.history.map((done) =>
    [finish(SlotViewer.findRounds(model, done)), done.used, [...done.inputs], [...done.after.grant], [...done.after.accept]]));
const differing = [];
for (let run = 0; run < 40; run += 1) {
    const rules = SlotViewer.SCHEDULERS.map(({ name }) => name);
    const settings = { ports: 1 + run % 9, rounds: 1 + run % 4, rule: rules[run % rules.length] };
    const models = [module, null].map((decider) => new kinds(decider, settings));
    for (let slot = 0; slot < 10; slot += 1) {
        const { ports } = models[0];
        for (let click = 0; click < ports * ports / 2; click += 1) {
            const [input, output] = [Math.random(), Math.random()].map((share) => Math.floor(share * ports));
            models.forEach((model) => model.click(input, output));
        }
        models.forEach((model) => model.step());
    }
    if (told(models[0]) !== told(models[1])) { differing.push(run); }
}
return differing;
"""


def test_script(page):
    """The script decides as the module does; without WebAssembly it decides, and the page says so."""
    page.load()
    expect(page.text("decided-by") == "Each slot is decided by the proved scheduler.", page.text("decided-by"))
    differing = page.run(BOTH)
    expect(differing == [], f"runs that differ: {differing}")
    made = page.driver.execute_cdp_cmd("Page.addScriptToEvaluateOnNewDocument", {"source": WITHOUT_WEBASSEMBLY})
    page.load()
    expect("decided by a script" in page.text("decided-by") and "not proved" in page.text("decided-by"), page.text("decided-by"))
    page.set("ports", 2)
    page.push("step")
    page.push("step")
    expect(page.slots() == ["0>0", "1>0, 0>1"], f"{page.slots()}")
    page.shoot("script")
    page.driver.execute_cdp_cmd("Page.removeScriptToEvaluateOnNewDocument", made)
    return "400 slots by both"


TESTS = (test_full_load, test_rounds, test_rules, test_requests, test_many_ports, test_page, test_script)
