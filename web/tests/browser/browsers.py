"""Chromium and Firefox, as far as the tests drive both; what only Chromium's developer tools can do is Chromium's own."""
from __future__ import annotations

import base64
import json
import pathlib
from typing import Any, Dict, List, Protocol, Sequence, Tuple

from selenium import webdriver
from selenium.webdriver.chrome.options import Options
from selenium.webdriver.chrome.service import Service
from selenium.webdriver.common.by import By

from marionette import Marionette

WIDTH, HEIGHT = 1200, 900
SCRIPT_TIME = 120  # seconds that a script may take
CONTROL = 2  # the modifier of the developer tools
CONTROL_KEY = "\ue009"  # in WebDriver
# without a window, and as root in a container
SWITCHES = ("--headless=new", "--no-sandbox", "--disable-gpu", "--disable-dev-shm-usage")
# keeps what a page complains of, where the browser's log doesn't have it
LISTEN = """
window.complaints = [];
document.addEventListener('securitypolicyviolation', (event) => window.complaints.push(`${event.violatedDirective} ${event.blockedURI}`));
for (const kind of ['error', 'warn']) console[kind] = (...words) => window.complaints.push(words.join(' '));
"""


class Browser(Protocol):
    """Opens pages, runs scripts in them, and types: text into an element, or paths into a file input."""

    name: str
    downloads: pathlib.Path

    def open(self, address: str) -> None: ...

    def script(self, text: str, *words: Any) -> Any: ...

    def type(self, identifier: str, text: str) -> None: ...

    def click(self, x: float, y: float) -> None: ...

    def wheel(self, x: float, y: float, by: int, *, control: bool = False) -> None:
        """Turns the wheel there by so many pixels, down for more than 0, with the control key or without."""

    def paste(self, text: str) -> None:
        """Has the text on the clipboard, and pastes it by the keys for that."""

    def printed(self) -> bytes:
        """The page on paper, as a PDF file."""

    def complaints(self) -> List[str]:
        """The errors and warnings in the console since the last call."""

    def quit(self) -> None: ...


class Firefox:
    name = "firefox"

    def __init__(self, downloads: pathlib.Path) -> None:
        self.downloads = downloads
        self._marionette = Marionette(downloads)
        self._heard = 0

    def open(self, address: str) -> None:
        self._marionette.navigate("about:blank")  # (so that an address with another # is a new page too)
        self._marionette.navigate(address)
        self._marionette.script(LISTEN)

    def script(self, text: str, *words: Any) -> Any:
        return self._marionette.script(text, *words)

    def type(self, identifier: str, text: str) -> None:
        self._marionette.send_keys(identifier, text)

    def click(self, x: float, y: float) -> None:
        move = {"type": "pointerMove", "x": round(x), "y": round(y), "duration": 0}
        buttons = [{"type": kind, "button": 0} for kind in ("pointerDown", "pointerUp")]
        self._marionette.perform([{"type": "pointer", "id": "mouse", "actions": [move, *buttons]}])

    def wheel(self, x: float, y: float, by: int, *, control: bool = False) -> None:
        turn = {"type": "scroll", "x": round(x), "y": round(y), "deltaX": 0, "deltaY": by, "duration": 0}
        pause = {"type": "pause"}
        keys = [{"type": kind, "value": CONTROL_KEY} for kind in ("keyDown", "keyUp")] if control else [pause, pause]
        actions = {"wheel": [pause, turn, pause], "key": [keys[0], pause, keys[1]]}
        self._marionette.perform([{"type": kind, "id": kind, "actions": it} for kind, it in actions.items()])

    def paste(self, text: str) -> None:
        self._marionette.script("return navigator.clipboard.writeText(arguments[0])", text)
        keys = [("keyDown", CONTROL_KEY), ("keyDown", "v"), ("keyUp", "v"), ("keyUp", CONTROL_KEY)]
        self._marionette.perform([{"type": "key", "id": "keys", "actions": [{"type": kind, "value": it} for kind, it in keys]}])

    def printed(self) -> bytes:
        return base64.b64decode(self._marionette.call("WebDriver:Print", {})["value"])

    def complaints(self) -> List[str]:
        lines = self._marionette.complaints()
        self._heard, lines = len(lines), lines[self._heard :]
        found: List[str] = self._marionette.script("const found = window.complaints ?? []; window.complaints = []; return found")
        return lines + found

    def quit(self) -> None:
        self._marionette.quit()


class Chromium:
    name = "chromium"

    def __init__(self, downloads: pathlib.Path, *switches: str) -> None:
        self.downloads = downloads
        options: Any = Options()  # (selenium has types for some of its functions)
        options.binary_location = "/usr/bin/chromium"
        for it in (*SWITCHES, f"--window-size={WIDTH},{HEIGHT}", *switches):
            options.add_argument(it)
        options.set_capability("goog:loggingPrefs", {"browser": "ALL", "performance": "ALL"})
        self._driver: Any = webdriver.Chrome(service=Service("/usr/bin/chromedriver"), options=options)
        self._driver.set_script_timeout(SCRIPT_TIME)
        self.tools("Browser.setDownloadBehavior", behavior="allow", downloadPath=str(downloads))
        self.tools("Emulation.setDeviceMetricsOverride", width=WIDTH, height=HEIGHT, deviceScaleFactor=1, mobile=False)
        # (as if a user looked at it, also where the focus has left the page)
        self.tools("Emulation.setFocusEmulationEnabled", enabled=True)

    def open(self, address: str) -> None:
        self._driver.get("about:blank")
        self._driver.get(address)

    def script(self, text: str, *words: Any) -> Any:
        return self._driver.execute_script(text, *words)

    def type(self, identifier: str, text: str) -> None:
        self._driver.find_element(By.ID, identifier).send_keys(text)

    def tools(self, command: str, **words: Any) -> Dict[str, Any]:
        """A command of the developer tools (https://chromedevtools.github.io/devtools-protocol/)."""
        return dict(self._driver.execute_cdp_cmd(command, words))

    def drop(self, paths: Sequence[pathlib.Path], x: float, y: float) -> None:
        """Drops files there, as from a file manager."""
        data = {"items": [], "files": [str(it) for it in paths], "dragOperationsMask": 1}
        for kind in ("dragEnter", "dragOver", "drop"):
            self.tools("Input.dispatchDragEvent", type=kind, x=x, y=y, data=data)

    def click(self, x: float, y: float) -> None:
        for kind in ("mousePressed", "mouseReleased"):
            self.tools("Input.dispatchMouseEvent", type=kind, x=x, y=y, button="left", clickCount=1)

    def wheel(self, x: float, y: float, by: int, *, control: bool = False) -> None:
        self.tools("Input.dispatchMouseEvent", type="mouseWheel", x=x, y=y, deltaX=0, deltaY=by, modifiers=CONTROL if control else 0)

    def touch(self, kind: str, *places: Tuple[float, float]) -> None:
        """Fingers there: 'touchStart', 'touchMove', or 'touchEnd' without places."""
        points = [{"x": x, "y": y, "id": at} for at, (x, y) in enumerate(places)]
        self.tools("Input.dispatchTouchEvent", type=kind, touchPoints=points)

    def paste(self, text: str) -> None:
        self.tools("Browser.grantPermissions", permissions=["clipboardReadWrite", "clipboardSanitizedWrite"])
        self.tools("Runtime.evaluate", expression=f"navigator.clipboard.writeText({json.dumps(text)})", awaitPromise=True, userGesture=True)
        self.tools("Browser.resetPermissions")
        self.tools("Input.dispatchKeyEvent", type="keyDown", key="v", code="KeyV", modifiers=CONTROL, commands=["paste"])
        self.tools("Input.dispatchKeyEvent", type="keyUp", key="v", code="KeyV", modifiers=CONTROL)

    def printed(self) -> bytes:
        return base64.b64decode(self.tools("Page.printToPDF")["data"])

    def use_scheme(self, scheme: str) -> None:
        """Shows pages in 'light' or 'dark', at once."""
        features = {"prefers-color-scheme": scheme, "prefers-reduced-motion": "reduce"}
        self.tools("Emulation.setEmulatedMedia", features=[{"name": name, "value": it} for name, it in features.items()])

    def use_width(self, width: int, height: int = HEIGHT) -> None:
        self.tools("Emulation.setDeviceMetricsOverride", width=width, height=height, deviceScaleFactor=1, mobile=False)

    def screenshot(self, width: int, height: int, top: int = 0) -> bytes:
        """A PNG of the left part of the page, from the top or from further down."""
        clip = {"x": 0, "y": top, "width": width, "height": height, "scale": 1}
        return base64.b64decode(self.tools("Page.captureScreenshot", captureBeyondViewport=True, clip=clip)["data"])

    def complaints(self) -> List[str]:
        return [f"{it['level']} {it['message']}" for it in self._driver.get_log("browser") if it["level"] in ("SEVERE", "WARNING")]

    def requests(self) -> List[str]:
        """The addresses that were requested since the last call."""
        messages = [json.loads(it["message"])["message"] for it in self._driver.get_log("performance")]
        return [it["params"]["request"]["url"] for it in messages if it["method"] == "Network.requestWillBeSent"]

    def quit(self) -> None:
        self._driver.quit()
