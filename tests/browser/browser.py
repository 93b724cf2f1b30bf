"""Drives Chromium without a window, for the tests of the pages."""
import atexit
import base64
import functools
import importlib.util
import itertools
import json
import os
import shutil
import subprocess
import tempfile
import unittest
from pathlib import Path

from common import PATIENCE, text_of, waited
from helpers import equal, expect
from helpers import needed as module

NAMES = "chromium", "chromium-browser", "google-chrome", "chrome"
KEYS = {"ArrowLeft": 37, "ArrowUp": 38, "ArrowRight": 39, "ArrowDown": 40, "Home": 36, "End": 35, " ": 32, "Tab": 9, "Enter": 13, "Escape": 27}
CTRL, SHIFT = 2, 8
OPTIONS = ["--headless", "--disable-gpu", "--no-first-run", "--hide-scrollbars", "--disable-sync", "--disable-background-networking",
           "--disable-component-update", "--host-resolver-rules=MAP * ~NOTFOUND, EXCLUDE 127.0.0.1"]
# For the expressions of the tests: short names for what is looked up, and what a page's module exports, or the viewer at the board.
INSIDE = """
globalThis.$ = (selector) => document.querySelector(selector);
globalThis.$$ = (selector) => [...document.querySelectorAll(selector)];
globalThis.texts = (selector) => $$(selector).map((at) => at.textContent);
globalThis.names = (selector) => $$(selector).map((at) => at.dataset.name);
// A click on a busy machine is no long press.
const later = setTimeout;
globalThis.setTimeout = (act, time) => later(act, time === 550 ? 6000 : time);
addEventListener("load", async () => {
  const script = $("script[type=module][src]");
  const module = script && await import(script.src);
  const own = module && module.lesson ? Object.assign(module.lesson, { play: module.play }) : module;
  globalThis.inside = own || { get viewer() { return $("#board").viewer; } };
});"""
READY = "document.readyState === 'complete' && Boolean(globalThis.inside && inside.viewer)"
# What a page holds in which something never came to be true.
WHERE = "`${location.href} ${document.readyState} ${Boolean(globalThis.inside)} ${document.body.innerText}`.slice(0, 600)"
LISTED = "$$('#whole li').map((at) => [...at.querySelectorAll('code')].map((code) => code.textContent))"
MIDDLE = """(async () => {
  const at = $(%s), doors = $$("details:not([open])").filter((door) => at && door.contains(at) && at.parentElement !== door);
  if (!at) return null;
  doors.forEach((door) => { door.open = true; });
  if (doors.length) await new Promise((done) => setTimeout(() => requestAnimationFrame(() => requestAnimationFrame(done))));
  (at.closest("svg") || at).scrollIntoView({ block: "nearest" });
  const box = at.getBoundingClientRect();
  return [box.x + box.width / 2, box.y + box.height / 2];
})()"""
UNNAMED = """$$("button, select, input, [role=button]").filter((at) =>
  !(at.textContent.trim() || at.getAttribute("aria-label") || (at.labels && at.labels.length))).map((at) => at.outerHTML)"""


def found():
    """Where Chromium is, or None; also if this Python can't speak to it."""
    return next(filter(None, map(shutil.which, NAMES)), None) if importlib.util.find_spec("websocket") else None


def opened(browser):
    """A browser that was opened, and is closed at the end."""
    browser.__enter__()
    atexit.register(browser.__exit__)
    return browser


@functools.lru_cache(maxsize=None)
def browsers():
    """Three browsers, or none."""
    return [opened(Browser(found())) for _ in range(3)] if found() else []


def needed():
    """Three browsers as they are at first, or the test is left out."""
    if not found():
        raise unittest.SkipTest("all that is seen in a browser, for want of Chromium")
    return [browser.fresh() for browser in browsers()]


def at(name):
    """The selector of a vertex on the board."""
    return f"#board [data-name='{name}']"


class Browser:
    """One browser with one page. What it has asked the network for is in `asked`, and what its pages have thrown in `thrown`."""

    def __init__(self, program):
        self.program, self.numbers = program, itertools.count(1)
        self.asked, self.thrown, self.session = [], [], None

    def __enter__(self):
        self.folder = Path(tempfile.mkdtemp())
        self.begin(*OPTIONS, f"--user-data-dir={self.folder}", *(["--no-sandbox"] if os.geteuid() == 0 else []))
        page = self.call("Target.createTarget", url="about:blank")["targetId"]
        self.session = self.call("Target.attachToTarget", targetId=page, flatten=True)["sessionId"]
        for domain in "Page", "Runtime", "Network":
            self.call(domain + ".enable")
        self.call("Emulation.setFocusEmulationEnabled", enabled=True)
        self.call("Page.addScriptToEvaluateOnNewDocument", source=INSIDE)
        return self

    def begin(self, *words):
        """Starts the process, and opens the link on which it takes commands."""
        nothing = subprocess.DEVNULL
        self.child = subprocess.Popen([self.program, *words, "--remote-debugging-port=0"], stdin=nothing, stdout=nothing, stderr=nothing)
        if not waited(self.address):
            raise TimeoutError("the browser does not begin")
        self.link = module("websocket").create_connection(self.address(), timeout=PATIENCE, suppress_origin=True)

    def address(self):
        """Where it takes commands, once it has written that down."""
        place = self.folder / "DevToolsActivePort"
        port, _, path = text_of(place).partition("\n") if place.exists() else ("", "", "")
        return path and f"ws://127.0.0.1:{port}{path}"

    def __exit__(self, *_):
        """Ends the process, and drops its folder."""
        self.link.close()
        try:
            self.child.terminate()
            self.child.wait(PATIENCE)
        except subprocess.TimeoutExpired:
            self.child.kill()
            self.child.wait()
        shutil.rmtree(self.folder, ignore_errors=True)

    def send(self, message):
        self.link.send(json.dumps({**message, **({"sessionId": self.session} if self.session else {})}))

    def message(self):
        """The next message of the browser."""
        return json.loads(self.link.recv())

    def note(self, message):
        """Keeps what a message tells of the network and of errors."""
        given = message.get("params", {})
        if message.get("method") == "Network.requestWillBeSent":
            self.asked.append(given["request"]["url"])
        if message.get("method") == "Runtime.exceptionThrown":
            self.thrown.append(given["exceptionDetails"].get("exception", {}).get("description", "an exception"))

    def call(self, method, **given):
        """What a command answers."""
        number = next(self.numbers)
        self.send({"id": number, "method": method, "params": given})
        while True:
            message = self.message()
            self.note(message)
            if message.get("id") == number:
                if "error" in message:
                    raise ValueError(f"{method}: {message['error']}")
                return message["result"]

    def value(self, expression):
        """The value of an expression in the page, where it can name what the page's module exports."""
        return self.evaluated(f"with (globalThis.inside || {{}}) {{ {expression} }}")

    def evaluated(self, expression):
        got = self.call("Runtime.evaluate", expression=expression, returnByValue=True, awaitPromise=True)
        if "exceptionDetails" in got:
            raise ValueError(f"{expression}: {got['exceptionDetails']}")
        return got["result"].get("value")

    def text(self, selector):
        return self.value(f"$({json.dumps(selector)}).textContent")

    def open(self, place):
        """Opens a file as a page, or an address, and waits until it is there."""
        wanted = place if str(place).startswith("http:") else Path(place).resolve().as_uri()
        self.go(wanted)
        self.until(f"document.readyState === 'complete' && location.href === {json.dumps(wanted)}")

    def fresh(self):
        """The browser without a page, which has asked for nothing."""
        self.go("about:blank")
        self.until("location.href === 'about:blank'")
        self.media()
        self.size()
        self.asked.clear()
        return self

    def go(self, url):
        """Begins to open an address."""
        self.call("Page.navigate", url=url)

    def until(self, expression):
        """Waits until an expression is true in the page, or in the one that follows it."""
        def held():
            try:
                return self.value(expression)
            except ValueError as error:
                if "navigated" in str(error):
                    return False
                raise

        if not waited(held):
            raise TimeoutError(f"{expression}: {self.value(WHERE)}")

    def press(self, key, modifiers=0):
        """Presses a key and lets it go."""
        given = {"key": key, "code": "Space" if key == " " else key, "modifiers": modifiers,
                 "windowsVirtualKeyCode": KEYS.get(key) or ord(key.upper())}
        text = {"Enter": "\r"}.get(key) or (key if len(key) == 1 else None)
        self.call("Input.dispatchKeyEvent", type="keyDown", **given, **({"text": text} if text else {}))
        self.call("Input.dispatchKeyEvent", type="keyUp", **given)

    def write(self, text, into=None):
        """Types a text into what has the focus, or into an element."""
        if into:
            self.click(into)
        self.insert(text)

    def insert(self, text):
        self.call("Input.insertText", text=text)

    def middle(self, selector):
        """The middle of an element, after it was brought into view. A place is itself."""
        place = self.value(MIDDLE % json.dumps(selector)) if isinstance(selector, str) else selector
        if not place:
            raise ValueError(f"there is no {selector}")
        return place

    def mouse(self, kind, place, modifiers=0, held=1):
        """One event of the mouse at a place."""
        self.call("Input.dispatchMouseEvent", type="mouse" + kind, x=place[0], y=place[1], button="left", buttons=held,
                  clickCount=1, modifiers=modifiers)

    def click(self, selector, modifiers=0, until="true"):
        """Clicks on an element with the mouse, and lets it go once something holds."""
        place = self.middle(selector)
        self.mouse("Moved", place, modifiers, 0)
        self.mouse("Pressed", place, modifiers)
        self.until(until)
        self.mouse("Released", place, modifiers, 0)

    def drag(self, *ends, finger=False):
        """Draws with the mouse or a finger from an element or a place to another."""
        one, other = map(self.middle, ends)
        act, begin, end = (self.finger, "Start", "End") if finger else (self.mouse, "Pressed", "Released")
        if not finger:
            self.mouse("Moved", one, 0, 0)
        act(begin, one)
        for part in 0.2, 0.6, 1.0:
            act("Move" if finger else "Moved", [one[i] + part * (other[i] - one[i]) for i in (0, 1)])
        act(end, *([] if finger else [other, 0, 0]))

    def finger(self, kind, *places):
        """One event of a finger at a place."""
        self.call("Input.dispatchTouchEvent", type="touch" + kind, touchPoints=[{"x": x, "y": y} for x, y in places])

    def touch(self, selector, until="true"):
        """Touches an element with a finger, until something holds."""
        self.finger("Start", self.middle(selector))
        self.until(until)
        self.finger("End")

    def choose_file(self, selector, *places):
        """Gives files to an element for files."""
        chosen = self.call("Runtime.evaluate", expression=f"$({json.dumps(selector)})")
        self.call("DOM.setFileInputFiles", files=[*map(os.path.abspath, places)], objectId=chosen["result"]["objectId"])

    def save_in(self, folder):
        """Has the page's files be saved in a folder without asking."""
        self.call("Page.setDownloadBehavior", behavior="allow", downloadPath=str(folder))

    def size(self, wide=1280, high=800):
        """Sets the size of the window."""
        self.call("Emulation.setDeviceMetricsOverride", width=wide, height=high, deviceScaleFactor=1, mobile=False)

    def media(self, kind="", motion="reduce", **features):
        """Has the page be printed or shown, and sets what its reader prefers, as prefers_color_scheme='dark'. Says whether it is so."""
        features = {"prefers_reduced_motion": motion, **features}
        listed = [{"name": name.replace("_", "-"), "value": value} for name, value in features.items()]
        self.call("Emulation.setEmulatedMedia", media=kind, features=listed)
        return True

    def picture(self, place, whole=False):
        """Writes a picture of the page to a PNG file: of what the window shows, or of the whole page."""
        got = self.call("Page.captureScreenshot", format="png", captureBeyondViewport=whole)
        Path(place).write_bytes(base64.b64decode(got["data"]))

    def in_sizes(self, name, sizes=((360, 740), (1280, 800), (1920, 1080), (640, 400)), prepare=lambda: None):
        """At each size, in the light, in the dark and on paper, nothing stands out to the right, and each control has a name."""
        pictures = os.environ.get("PICTURES")
        for features in {}, {"prefers_color_scheme": "dark"}:
            self.media(**features)
            for wide, high in sizes:
                self.size(wide, high)
                prepare()
                expect(self.value("document.documentElement.scrollWidth <= innerWidth"), f"{name} is too wide at {wide}")
                if pictures:
                    self.value("scrollTo(0, 0)")
                    self.picture(f"{pictures}/{name}-{wide}{'-dark' * bool(features)}.png", whole=wide == 360)
        equal(self.value(UNNAMED), [], f"controls of {name} without a name")
        if self.media("print"):
            expect(self.value("!$('#controls') || getComputedStyle($('#controls')).display === 'none'"), f"{name}: buttons on paper")
        self.media()
        self.size()

    def harmless(self, *own):
        """Sees that no page has thrown an error, or has asked the network for what is not its own."""
        equal(self.thrown, [], "what pages have thrown")
        outside = [url for url in self.asked if not url.startswith((*own, "file:", "data:", "blob:", "about:"))]
        equal(outside, [], "what pages have asked of others")


class Page:
    """A page under test, which does what its browser does, and the folder in which it saves its files."""

    def __init__(self, browser, address, folder):
        self.browser, self.folder = browser, Path(folder)
        self.folder.mkdir(exist_ok=True)
        self.visit(address)

    def __getattr__(self, name):
        return getattr(self.browser, name)

    def visit(self, address, until="true"):
        """Opens an address, and waits until its module is there and something holds."""
        self.open(address)
        self.until(f"{READY} && {until}")

    def has(self, length):
        """Waits until the page shows so many entries."""
        self.until(f"viewer.game.length === {length}")

    def focus(self, selector):
        self.until(f"(($) => {{ $.focus(); return document.activeElement === $; }})($({json.dumps(selector)}))")

    def types(self, selector, text):
        """Types a text into a field in place of what it has."""
        self.focus(selector)
        self.value(f"$({json.dumps(selector)}).select()")
        self.write(text)

    def edit(self):
        """Opens the editor, which brings the board into view once the page was drawn."""
        self.click("#edit")
        self.value("new Promise((done) => requestAnimationFrame(() => requestAnimationFrame(() => requestAnimationFrame(done))))")
        self.until("!$('#editor').hidden && $('#board').getBoundingClientRect().y > -1")

    def saved(self, button, name):
        """The text of a file that a button saves."""
        place = self.folder / name
        place.unlink(missing_ok=True)
        self.browser.save_in(self.folder)
        self.value("$$('#tables details').forEach((at) => { at.open = true; })")
        self.click(button)
        if not waited(lambda: place.exists() and place.stat().st_size):
            raise TimeoutError(f"{name} is not saved")
        return text_of(place)

    def answered(self, yes):
        """Answers the page's question, whether it should go on."""
        self.until("$('#sure').open")
        self.click(f"#sure button[value={'yes' if yes else 'no'}]")
        self.until("!$('#sure').open")
