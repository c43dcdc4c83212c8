"""The viewer's page in a headless browser, for its test."""

import pathlib
import shutil
import time

# Keys, as the browser's driver has them.
END, HOME, LEFT, UP, RIGHT, DOWN = "\ue010\ue011\ue012\ue013\ue014\ue015"
ESCAPE = "\ue00c"
TAB = "\ue004"

PAGE = (pathlib.Path(__file__).resolve().parents[2] / "viewer/index.html").as_uri()


class Failed(Exception):
    """A test's expectation that does not hold."""


def expect(holds, what):
    if not holds:
        raise Failed(what)


def find_browser():
    """What is missing for the test, or None; and the parts of selenium."""
    try:
        from selenium import webdriver
    except ImportError:
        return "python3-selenium", None
    for program, package in (("chromium", "chromium"), ("chromedriver", "chromium-driver")):
        if shutil.which(program) is None:
            return package, None
    return None, webdriver


class Viewer:
    """The viewer's page in a headless browser."""

    def __init__(self, webdriver, folder, shots):
        options = webdriver.ChromeOptions()
        for word in ("--headless=new", "--no-sandbox", "--disable-gpu", "--hide-scrollbars", f"--user-data-dir={folder}/profile"):
            options.add_argument(word)
        options.binary_location = shutil.which("chromium")
        options.set_capability("goog:loggingPrefs", {"browser": "ALL"})
        service = webdriver.chrome.service.Service(shutil.which("chromedriver"))
        self.driver = webdriver.Chrome(service=service, options=options)
        self.actions = webdriver.ActionChains
        self.folder = pathlib.Path(folder)
        self.shots = shots
        self.load()

    def load(self, fragment="", width=1400, height=900):
        self.driver.set_window_rect(0, 0, width, height)
        self.driver.get("about:blank")
        self.driver.get(PAGE + fragment)
        self.wait("globalThis.SlotViewer && SlotViewer.page", "the page, which first loads the proved scheduler")

    def view_port(self, width, height):
        """Gives the page a window of exactly so many pixels, as on a phone; 0 by 0 goes back to the window's own."""
        if width == 0:
            self.driver.execute_cdp_cmd("Emulation.clearDeviceMetricsOverride", {})
        else:
            self.driver.execute_cdp_cmd("Emulation.setDeviceMetricsOverride", {"width": width, "height": height, "deviceScaleFactor": 1, "mobile": False})
        self.wait("true", "a frame")

    def run(self, script, *values):
        return self.driver.execute_script(script, *values)

    def text(self, name):
        return self.run("return document.getElementById(arguments[0]).innerText", name)

    def is_shown(self, name):
        return self.run("return document.getElementById(arguments[0]).checkVisibility()", name)

    def open(self, *given, field="file"):
        """Chooses files in a field of the page and waits until all slots have been gone through."""
        self.run("SlotViewer.page.showNotice('')")
        self.driver.find_element("id", field).send_keys("\n".join(str(file) for file in given))
        self.wait_read(given)

    def wait_read(self, what):
        self.wait("document.getElementById('notice').hidden || document.getElementById('notice').innerText.match(/no slot lines|no slots|not compared/)", what)

    def open_bytes(self, name, data, field="file"):
        file = self.folder / name
        file.write_bytes(data)
        self.open(file, field=field)

    def choose(self, name, value):
        """Chooses an entry of a list, or types into a field."""
        self.run("const one = document.getElementById(arguments[0]); one.value = arguments[1]; one.dispatchEvent(new Event('change'))", name, value)
        self.wait("true", "a frame")

    def push(self, name):
        """Presses a button of the page."""
        self.run("document.getElementById(arguments[0]).click()", name)
        self.wait("true", "a frame")

    def lines(self, selector):
        """The texts of the elements that a selector finds."""
        return self.run("return Array.from(document.querySelectorAll(arguments[0]), (one) => one.innerText.trim())", selector)

    def place(self, name):
        """Where an element is in the window: left, top, right, bottom."""
        return self.run("const box = document.getElementById(arguments[0]).getBoundingClientRect(); return [box.left, box.top, box.right, box.bottom]", name)

    def wait(self, condition, what, seconds=900):
        end = time.monotonic() + seconds
        while not self.run(f"return Boolean({condition})"):
            expect(time.monotonic() < end, f"{what}: {condition} did not come in {seconds} seconds")
            time.sleep(0.05)
        # Two frames on, all is drawn.
        self.driver.execute_async_script("const done = arguments[0]; requestAnimationFrame(() => requestAnimationFrame(() => done()))")

    def press(self, name, key):
        """Presses a key with the focus on an element; "" is the page."""
        self.run("document.activeElement.blur(); if (arguments[0]) document.getElementById(arguments[0]).focus()", name)
        self.actions(self.driver).send_keys(key).perform()
        self.wait("true", "a frame")

    def click(self, name, x):
        """Clicks on an element, so far from its left edge, half way down."""
        element = self.driver.find_element("id", name)
        offset = round(x - element.size["width"] / 2)
        self.actions(self.driver).move_to_element_with_offset(element, offset, 0).click().perform()
        self.wait("true", "a frame")

    def hover(self, name, x, y):
        """Moves the mouse to a place of an element, so far from its left upper corner."""
        self.run("document.getElementById(arguments[0]).scrollIntoView({ block: 'center' })", name)
        element = self.driver.find_element("id", name)
        offsets = (round(x - element.size["width"] / 2), round(y - element.size["height"] / 2))
        self.actions(self.driver).move_to_element_with_offset(element, *offsets).perform()
        self.wait("true", "a frame")

    def slot(self):
        return self.run("return SlotViewer.page.slot")

    def drawing_ms(self, slot):
        """How long the page's thread computes to go to a slot and draw all of it and the time line."""
        before = self.computed_ms()
        self.run("const { page } = SlotViewer; page.go(arguments[0]); page.dirty.timeline = true; page.frame()", slot)
        return self.computed_ms() - before

    def computed_ms(self):
        """The processor time of the page's thread so far."""
        self.driver.execute_cdp_cmd("Performance.enable", {"timeDomain": "threadTicks"})
        metrics = self.driver.execute_cdp_cmd("Performance.getMetrics", {})["metrics"]
        return 1000 * next(metric["value"] for metric in metrics if metric["name"] == "TaskDuration")

    def table(self, name):
        """The rows of a table of the page, as lists of texts."""
        return self.run("""return Array.from(document.querySelectorAll(`[aria-label="${arguments[0]}"] tbody tr`),
            (row) => Array.from(row.cells, (cell) => cell.innerText))""", name)

    def shoot(self, name):
        self.driver.save_screenshot(str(self.shots / f"{name}.png"))

    def complaints(self):
        return [entry["message"] for entry in self.driver.get_log("browser") if entry["level"] in ("SEVERE", "WARNING")]
