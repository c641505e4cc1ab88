"""A headless Chromium with the page, through Debian's chromedriver."""
import json
import time
from pathlib import Path

from selenium import webdriver
from selenium.common.exceptions import JavascriptException, WebDriverException
from selenium.webdriver.common.action_chains import ActionChains
from selenium.webdriver.chrome.service import Service
from selenium.webdriver.common.by import By

from checks.cases import lines_in

# The width and height of a desktop's and of a phone's screen.
SIZES = {"wide": (1280, 800), "narrow": (390, 844)}
# Places in the page: the address of each, and a script that goes there from it.
PLACES = {
    "home": ("#home", ""),
    "replay": (
        "#replay",
        "document.getElementById('replay-example').click(); for (let i = 0; i < 8; i++) document.getElementById('replay-forward').click();"
        "document.getElementById('replay-whole').open = true",
    ),
    "teams": ("#play", ""),
    "play": ("#play", "document.getElementById('play-start').click()"),
    "card": (
        "#play",
        "document.getElementById('play-start').click(); document.querySelector('#play-field .stand:not(.far) .party button').click()",
    ),
    "calculator": (
        "#calculator",
        "document.querySelectorAll('#panel-calculator details').forEach((it) => (it.open = true));"
        "document.querySelectorAll('#calc-results .move')[1].click()",
    ),
    "carried": (
        "#play",
        "document.getElementById('play-start').click(); document.getElementById('play-calculate').click()",
    ),
    "builder": ("#teams", "document.querySelectorAll('#panel-teams details').forEach((it) => (it.open = true))"),
    "message": ("#replay?b=zzzz", ""),
}
# Calls the body of a function with arguments; an element that it returns is a true value.
CALL = """
(async () => {
  const found = await (async function () { %s
  }).apply(window, %s);
  return found instanceof Node ? true : found;
})()
"""
# Waits in the page until a script returns a true value, or some milliseconds are over; returns the last value.
WAIT = """
const holds = () => { %s };
const end = performance.now() + %d;
return new Promise((done, fail) => {
  const look = () => {
    try {
      const found = holds();
      if (found || performance.now() > end) done(found); else setTimeout(look, 15);
    } catch (fault) { fail(fault); }
  };
  look();
});
"""
# Brings an element into view; returns the place to press, or why a person could not press it there.
PLACE = """
const it = document.querySelector(arguments[0]);
if (!it) return 'it is not there';
it.scrollIntoViewIfNeeded();
const box = it.getClientRects()[0];
if (!box || !it.checkVisibility({visibilityProperty: true})) return 'it is not shown';
const middle = (from, to, most) => (Math.max(0, from) + Math.min(most, to)) / 2;
const [x, y] = [middle(box.left, box.right, innerWidth), middle(box.top, box.bottom, innerHeight)];
const top = document.elementFromPoint(x, y);
document.removeEventListener('pointerdown', window.noted, true);
window.landed = false;
window.noted = (event) => { window.landed = it.contains(event.target); };
document.addEventListener('pointerdown', window.noted, true);
return it.contains(top) ? [x, y] : `it is covered by ${top?.outerHTML.slice(0, 200)}`;
"""
# What the driver says where the page was left while a script waited in it.
LEFT = ("navigated", "destroyed", "collected", "Cannot find")


class Browser:
    """The page in a browser, as a person uses it."""

    def __init__(self, page, folder, program=None):
        is_served = str(page).startswith("http")
        self.page, self.folder, self.program = page if is_served else Path(page).resolve().as_uri(), folder, program
        options = webdriver.ChromeOptions()
        for word in (
            "--headless=new",
            "--no-sandbox",
            "--disable-gpu",
            "--disable-dev-shm-usage",
            "--window-size=1280,960",
        ):
            options.add_argument(word)
        options.binary_location = "/usr/bin/chromium"
        # The checks themselves wait for what they need.
        options.page_load_strategy = "none"
        options.set_capability("goog:loggingPrefs", {"browser": "ALL", "performance": "ALL"})
        self.driver = webdriver.Chrome(service=Service("/usr/bin/chromedriver"), options=options)
        self.driver.execute_cdp_cmd("Browser.setDownloadBehavior", {"behavior": "allow", "downloadPath": str(folder)})
        self.said, self.requested = [], []
        self.look(*SIZES["wide"], "light")

    def close(self):
        self.driver.quit()

    def open(self, address="#replay", page=None, first=None):
        """Loads the page anew at an address, and waits until it is ready. The script `first` runs before those of the page."""
        if first:
            given = {"source": f"if (location.protocol !== 'about:') {{ {first} }}"}
            made = self.driver.execute_cdp_cmd("Page.addScriptToEvaluateOnNewDocument", given)
        self.leave()
        self.driver.get("about:blank")
        self.driver.get((page or self.page) + address)
        self.is_ready()
        if first:
            self.driver.execute_cdp_cmd("Page.removeScriptToEvaluateOnNewDocument", made)

    def leave(self):
        """Takes the mark from a page, so that the next page that is ready is another one."""
        self.run("delete document.documentElement?.dataset.ready")

    def is_ready(self):
        """Waits until the page has begun."""
        self.wait("return document.documentElement?.dataset.ready === 'true'", 60)

    def again(self):
        """Loads the page anew as a person does."""
        self.leave()
        self.driver.refresh()
        self.is_ready()

    def run(self, script, *words):
        """Runs the body of a function with these arguments, and returns its value, for which it waits if it is a promise."""
        asked = {"expression": CALL % (script, json.dumps(words)), "returnByValue": True, "awaitPromise": True}
        told = self.driver.execute_cdp_cmd("Runtime.evaluate", asked)
        if fault := told.get("exceptionDetails"):
            raise JavascriptException(fault.get("exception", {}).get("description", fault["text"]))
        return told["result"].get("value")

    def wait(self, script, seconds=15):
        """Waits in the page until a script returns a true value, and returns it."""
        end = time.monotonic() + seconds
        while (left := end - time.monotonic()) > 0:
            try:
                if answer := self.run(WAIT % (script, 1000 * min(left, 5))):
                    return answer
            except WebDriverException as fault:
                if isinstance(fault, JavascriptException) or not any(word in str(fault) for word in LEFT):
                    raise
                time.sleep(0.02)
        raise AssertionError(f"after {seconds} seconds still not: {script}")

    def find(self, selector):
        return self.driver.find_element(By.CSS_SELECTOR, selector)

    def click(self, selector):
        """Clicks on an element, and waits until the page has read a long battle.

        The pointer's events are those of the driver's own click, which however asks the page ten times as much: it costs 70 ms of
        processor time, and this 20 ms."""
        for _ in range(3):
            place = self.place(selector)
            self.point(*place, "mousePressed")
            self.point(*place, "mouseReleased")
            landed = self.wait("return !('busy' in document.documentElement.dataset) && [window.landed]", 60)
            if landed[0] is not False:
                return
        raise AssertionError(f"{selector}: it is not where it was when the pointer comes")

    def place(self, selector):
        """Moves the pointer to an element, and returns the place; what the page does meanwhile may move the element."""
        place = None
        for _ in range(20):
            found = self.run(PLACE, selector)
            assert not isinstance(found, str), f"{selector}: {found}"
            if found == place:
                break
            place = found
            self.point(*place)
        return place

    def point(self, x, y, kind="mouseMoved"):
        """Moves the pointer to a place, or presses or releases its button there."""
        button = {} if kind == "mouseMoved" else {"button": "left", "clickCount": 1}
        held = int(kind == "mousePressed")
        event = {"type": kind, "x": x, "y": y, "buttons": held, **button}
        self.driver.execute_cdp_cmd("Input.dispatchMouseEvent", event)

    def tap(self, selector):
        """Touches an element."""
        x, y = self.run(
            "const it = document.querySelector(arguments[0]).getBoundingClientRect(); return [it.x + it.width / 2, it.y + it.height / 2]",
            selector,
        )
        for kind, points in (("touchStart", [{"x": x, "y": y}]), ("touchEnd", [])):
            self.driver.execute_cdp_cmd("Input.dispatchTouchEvent", {"type": kind, "touchPoints": points})

    def text(self, selector):
        return self.run("return document.querySelector(arguments[0]).textContent", selector)

    def fill(self, selector, value):
        """Writes to a field, with the events of typing."""
        self.run(
            "const it = document.querySelector(arguments[0]); it.value = arguments[1];"
            "it.dispatchEvent(new Event('input', {bubbles: true})); it.dispatchEvent(new Event('change', {bubbles: true}));",
            selector,
            value,
        )

    def fill_all(self, values):
        """Writes to many fields, each by its selector."""
        self.run(
            "for (const [selector, value] of Object.entries(arguments[0])) {"
            "  const it = document.querySelector(selector); it.value = value; it.dispatchEvent(new Event('input', {bubbles: true})); }",
            values,
        )

    def file(self, name, content):
        """Opens a file with this content through the page's file field."""
        path = self.folder / name
        path.write_bytes(content if isinstance(content, bytes) else content.encode())
        self.find("#replay-file").send_keys(str(path))

    def type(self, selector, value):
        """Types a value key by key, and stays in the field."""
        field = self.find(selector)
        field.clear()
        field.send_keys(value)

    def press(self, key):
        """Presses a key, wherever the focus is."""
        ActionChains(self.driver, duration=0).send_keys(key).perform()

    def lines(self, selector):
        """The events of a list as lines, as the program prints them."""
        codes = "return [...document.querySelectorAll(arguments[0] + ' [data-code]')].map((it) => it.dataset.code)"
        return lines_in(self.run(codes, selector))

    def words(self, selector):
        """The texts of elements, as a person reads them."""
        return self.run("return [...document.querySelectorAll(arguments[0])].map((it) => it.textContent)", selector)

    def notice(self):
        """The message that is shown; empty if there is none."""
        return self.run(
            "const it = document.getElementById('notice'); return it.hidden ? '' : document.getElementById('notice-text').textContent"
        )

    def saved(self, selector, name):
        """The bytes of the file that a button saves."""
        path = self.folder / name
        path.unlink(missing_ok=True)
        self.click(selector)
        end = time.monotonic() + 10
        while time.monotonic() < end:
            if path.exists() and not list(self.folder.glob("*.crdownload")):
                return path.read_bytes()
            time.sleep(0.02)
        raise AssertionError(f"{name} was not saved")

    def look(self, width, height, scheme, motion="reduce"):
        """Sets the size of the page, whether the system is light or dark, and "reduce" or "no-preference" for motion."""
        self.driver.execute_cdp_cmd(
            "Emulation.setDeviceMetricsOverride",
            {"width": width, "height": height, "deviceScaleFactor": 1, "mobile": width < 600},
        )
        self.driver.execute_cdp_cmd("Emulation.setTouchEmulationEnabled", {"enabled": width < 600})
        self.driver.execute_cdp_cmd(
            "Emulation.setEmulatedMedia",
            {
                "features": [
                    {"name": "prefers-color-scheme", "value": scheme},
                    {"name": "prefers-reduced-motion", "value": motion},
                ]
            },
        )

    def nodes(self):
        """The nodes of the accessibility tree."""
        return self.driver.execute_cdp_cmd("Accessibility.getFullAXTree", {})["nodes"]

    def tree(self):
        """The nodes of the accessibility tree that are not ignored, as (role, name)."""
        value = lambda node, key: node.get(key, {}).get("value", "")
        return [(value(node, "role"), value(node, "name")) for node in self.nodes() if not node.get("ignored")]

    def gather(self):
        """Keeps the console messages and requests so far."""
        self.said += [entry for entry in self.driver.get_log("browser") if entry["level"] in ("SEVERE", "WARNING")]
        for entry in self.driver.get_log("performance"):
            message = json.loads(entry["message"])["message"]
            if message["method"] == "Network.requestWillBeSent":
                self.requested.append(message["params"]["request"]["url"])


def go(browser, name):
    """Loads the page anew, and goes to a place."""
    address, script = PLACES[name]
    browser.open(address)
    browser.run(script)
