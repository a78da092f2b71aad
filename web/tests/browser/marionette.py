"""Firefox by its own remote control, Marionette: messages of JSON over a socket, each with its length in front. Debian has no
geckodriver, which would stand between; the commands are those of WebDriver (https://www.w3.org/TR/webdriver2/)."""
from __future__ import annotations

import json
import pathlib
import re
import shutil
import socket
import subprocess
import tempfile
import time
from typing import Any, Dict, List, Sequence

START_TIME = 180.0  # seconds, on a machine that does much else
PAGE_ERROR = re.compile(r"^JavaScript (?:error|warning): (?:file|http|blob|data):.*", re.MULTILINE)
ELEMENT_KEY = "element-6066-11e4-a52e-4f735466cecf"  # by which WebDriver marks an element
PREFERENCES = {
    "marionette.port": 0,  # any that is free
    "browser.shell.checkDefaultBrowser": False,
    "browser.startup.page": 0,
    "browser.startup.homepage_override.mstone": "ignore",
    "datareporting.policy.dataSubmissionEnabled": False,
    "app.update.disabledForTesting": True,
    "dom.events.testing.asyncClipboard": True,  # (so that a script may fill the clipboard without a click)
    "browser.download.folderList": 2,
    "browser.download.useDownloadDir": True,
}


class MarionetteError(Exception):
    """What Firefox answered in place of a result."""


class Marionette:
    """A Firefox of its own, with no window."""

    def __init__(self, downloads: pathlib.Path) -> None:
        self._profile = pathlib.Path(tempfile.mkdtemp(prefix="firefox"))
        preferences: Dict[str, Any] = {**PREFERENCES, "browser.download.dir": str(downloads)}
        lines = [f"user_pref({json.dumps(key)}, {json.dumps(value)});\n" for key, value in preferences.items()]
        (self._profile / "user.js").write_text("".join(lines))
        self._log = (self._profile / "log").open("w")
        command = ["firefox-esr", "--headless", "--marionette", "--no-remote", "--profile", str(self._profile)]
        self._process = subprocess.Popen(command, stdout=self._log, stderr=subprocess.STDOUT)
        self._socket = socket.create_connection(("127.0.0.1", self._port()), START_TIME)
        self._stream = self._socket.makefile("rb")
        self._sent = 0
        self._receive()  # (a greeting)
        self.version: str = self.call("WebDriver:NewSession", {"capabilities": {"alwaysMatch": {}}})["capabilities"]["browserVersion"]

    def _port(self) -> int:
        place, end = self._profile / "MarionetteActivePort", time.monotonic() + START_TIME
        while time.monotonic() < end:
            text = place.read_text() if place.exists() else ""
            if text.isdigit():
                return int(text)
            time.sleep(0.05)
        raise MarionetteError("Firefox didn't start: " + (self._profile / "log").read_text()[-2000:])

    def _receive(self) -> Any:
        length = b""
        while not length.endswith(b":"):
            byte = self._stream.read(1)
            if not byte:
                raise MarionetteError("Firefox ended the connection")
            length += byte
        return json.loads(self._stream.read(int(length[:-1])))

    def call(self, command: str, words: Dict[str, Any]) -> Any:
        self._sent += 1
        message = json.dumps([0, self._sent, command, words]).encode()
        self._socket.sendall(b"%d:%s" % (len(message), message))
        _, _, error, result = self._receive()
        if error:
            raise MarionetteError(f"{command}: {error['message']}")
        return result

    def navigate(self, address: str) -> None:
        self.call("WebDriver:Navigate", {"url": address})

    def script(self, text: str, *words: Any) -> Any:
        return self.call("WebDriver:ExecuteScript", {"script": text, "args": list(words), "sandbox": None})["value"]

    def send_keys(self, identifier: str, text: str) -> None:
        found = self.call("WebDriver:FindElement", {"using": "css selector", "value": f"#{identifier}"})["value"]
        self.call("WebDriver:ElementSendKeys", {"id": found[ELEMENT_KEY], "text": text})

    def perform(self, sources: Sequence[Dict[str, Any]]) -> None:
        """What keys, a pointer or a wheel do (https://www.w3.org/TR/webdriver2/#actions), in the same ticks."""
        self.call("WebDriver:PerformActions", {"actions": sources})

    def complaints(self) -> List[str]:
        """The errors of scripts of pages so far. (The browser's own are in the log too.)"""
        self._log.flush()
        return PAGE_ERROR.findall((self._profile / "log").read_text(errors="replace"))

    def quit(self) -> None:
        try:
            self.call("Marionette:Quit", {"flags": ["eForceQuit"]})
            self._process.wait(START_TIME)
        except (OSError, MarionetteError, subprocess.TimeoutExpired):
            self._process.kill()
        self._socket.close()
        self._log.close()
        shutil.rmtree(self._profile, ignore_errors=True)
