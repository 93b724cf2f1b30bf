"""Drives Firefox without a window, for the tests of the pages, by WebDriver BiDi: three windows of one process, each with its storage."""
import base64
import functools
import json
import os
import shutil
import tempfile
import unittest
from pathlib import Path

from browser import CTRL, INSIDE, SHIFT, Browser, needed, opened
from common import text_of, waited

NAMES = "firefox-esr", "firefox"
KEYS = {"Tab": "\ue004", "Enter": "\ue006", "Escape": "\ue00c", "End": "\ue010", "Home": "\ue011", "ArrowLeft": "\ue012",
        "ArrowUp": "\ue013", "ArrowRight": "\ue014", "ArrowDown": "\ue015"}
HELD = {SHIFT: "\ue008", CTRL: "\ue009"}
# Nothing moves by itself, nobody is asked or greeted, and no panel takes the focus.
PREFERENCES = {"ui.prefersReducedMotion": 1, "browser.shell.checkDefaultBrowser": False, "datareporting.policy.dataSubmissionEnabled": False,
               "browser.startup.page": 0, "network.captive-portal-service.enabled": False, "network.connectivity-service.enabled": False,
               "browser.download.alwaysOpenPanel": False}


@functools.lru_cache(maxsize=None)
def windows():
    """Three windows, or the test is left out."""
    program = next(filter(None, map(shutil.which, NAMES)), None)
    if not program:
        raise unittest.SkipTest("all that is seen in Firefox, for want of it")
    first = opened(Firefox(program))
    return [first, *(opened(Firefox(program, first)) for _ in range(2))]


def in_both(test):
    """A test that is given three browsers, as two: in Chromium and in Firefox."""
    def in_chromium(folder):
        test(folder, needed())

    def in_firefox(folder):
        test(folder, [window.fresh() for window in windows()])

    return in_chromium, in_firefox


def plain(value):
    kind, inner = value["type"], value.get("value")
    if kind == "array":
        return [plain(each) for each in inner]
    return {key: plain(each) for key, each in inner} if kind == "object" else inner


class Firefox(Browser):
    """One window, of a process of its own or of that of another."""

    def __init__(self, program, other=None):
        super().__init__(program)
        self.other, self.context = other, None
        if other:
            self.link, self.numbers, self.asked, self.thrown = other.link, other.numbers, other.asked, other.thrown

    def __enter__(self):
        if not self.other:
            self.folder = Path(tempfile.mkdtemp())
            lines = ("user_pref(%s, %s);\n" % tuple(map(json.dumps, pair)) for pair in PREFERENCES.items())
            (self.folder / "user.js").write_text("".join(lines))
            self.begin("--headless", "--no-remote", "--profile", str(self.folder))
            self.call("session.new", capabilities={})
            self.call("session.subscribe", events=["log.entryAdded", "network.beforeRequestSent"])
            self.call("script.addPreloadScript", functionDeclaration="() => {%s}" % INSIDE)
        own = self.call("browser.createUserContext")["userContext"]
        self.context = self.call("browsingContext.create", type="window", userContext=own)["context"]
        return self

    def address(self):
        place = self.folder / "WebDriverBiDiServer.json"
        try:
            return "ws://{ws_host}:{ws_port}/session".format(**json.loads(text_of(place)))
        except (OSError, ValueError):
            return None

    def __exit__(self, *_):
        if not self.other:
            super().__exit__()

    def note(self, message):
        given = message.get("params", {})
        if message.get("method") == "network.beforeRequestSent":
            self.asked.append(given["request"]["url"])
        if message.get("method") == "log.entryAdded" and given["type"] == "javascript":
            self.thrown.append(given["text"])

    def inside(self, method, **given):
        return self.call(method, context=self.context, **given)

    def evaluated(self, expression):
        got = self.call("script.evaluate", expression=expression, target={"context": self.context}, awaitPromise=True)
        if got["type"] == "exception":
            raise ValueError(f"{expression}: {got['exceptionDetails']['text']}")
        return plain(got["result"])

    def go(self, url):
        self.inside("browsingContext.navigate", url=url, wait="none")

    def does(self, source, name, *actions, **given):
        """Actions of a hand: of its keys, its mouse or its finger."""
        self.inside("input.performActions", actions=[{"type": source, "id": name, "actions": actions, **given}])

    def press(self, key, modifiers=0):
        # In a window that is not the active one Enter clicks on no button.
        waited(lambda: [self.inside("browsingContext.activate"), self.value("document.hasFocus()")][1], 5)
        key, held = KEYS.get(key, key), [HELD[each] for each in HELD if modifiers & each]
        self.does("key", "keys", *({"type": "keyDown", "value": each} for each in (*held, key)),
                  *({"type": "keyUp", "value": each} for each in (key, *held)))

    def insert(self, text):
        self.does("key", "keys", *({"type": kind, "value": letter} for letter in text for kind in ("keyDown", "keyUp")))

    def point(self, name, kind, place, act):
        """Moves a pointer to a place, if there is one, and then does an act, if there is one."""
        move = [{"type": "pointerMove", "x": round(place[0]), "y": round(place[1])}] if place else []
        self.does("pointer", name, *move, *([{"type": act, "button": 0}] if act else []), parameters={"pointerType": kind})

    def mouse(self, kind, place, modifiers=0, held=1):
        act = {"Pressed": "pointerDown", "Released": "pointerUp"}.get(kind)
        keys = [HELD[each] for each in HELD if modifiers & each]
        self.does("key", "keys", *({"type": "keyDown", "value": key} for key in keys))
        self.point("mouse", "mouse", place, act)
        self.does("key", "keys", *({"type": "keyUp", "value": key} for key in keys))

    def finger(self, kind, *places):
        act = {"Start": "pointerDown", "End": "pointerUp"}.get(kind)
        self.point("finger", "touch", places[0] if places else None, act)

    def choose_file(self, selector, *places):
        found = self.inside("browsingContext.locateNodes", locator={"type": "css", "value": selector})["nodes"][0]
        self.inside("input.setFiles", element={"sharedId": found["sharedId"]}, files=[*map(os.path.abspath, places)])

    def save_in(self, folder):
        self.call("browser.setDownloadBehavior", downloadBehavior={"type": "allowed", "destinationFolder": str(folder)})

    def size(self, wide=1280, high=800):
        self.inside("browsingContext.setViewport", viewport={"width": wide, "height": high}, devicePixelRatio=1)

    def media(self, *_, **__):
        """Its reader prefers what PREFERENCES say, and nothing is printed."""

    def picture(self, place, whole=False):
        got = self.inside("browsingContext.captureScreenshot", origin="document" if whole else "viewport")
        Path(place).write_bytes(base64.b64decode(got["data"]))
