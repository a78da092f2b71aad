"""The page as its user has it: files go in, and what it says is read."""
from __future__ import annotations

import json
import pathlib
import time
from dataclasses import dataclass
from typing import Any, Dict, List, Sequence

from browsers import Browser

TIME = 120.0  # seconds that an answer may take
IS_DONE = """
const { state } = document.body.dataset;
return (state === 'done' || state === 'failed') && document.getElementById('details').getAttribute('aria-busy') !== 'true'
"""


@dataclass(frozen=True)
class Line:
    """What the list says of a file."""

    name: str
    verdict: str
    state: str
    fault: str


class Page:
    def __init__(self, browser: Browser) -> None:
        self.browser = browser

    def script(self, text: str, *words: Any) -> Any:
        return self.browser.script(text, *words)

    def until(self, condition: str, *words: Any, seconds: float = TIME) -> Any:
        """Waits until a script returns something true, and returns that."""
        end = time.monotonic() + seconds
        while time.monotonic() < end:
            found = self.script(condition, *words)
            if found:
                return found
            time.sleep(0.02)
        raise AssertionError(f"it took more than {seconds} s: {condition}; the page says: {self.text('status')}")

    def until_done(self, seconds: float = TIME) -> None:
        self.until(IS_DONE, seconds=seconds)

    def until_shown(self, name: str, seconds: float = TIME) -> None:
        """Waits for the answer on a file."""
        self.until("return document.getElementById('name').textContent === arguments[0]", name, seconds=seconds)
        self.until_done(seconds)

    def text(self, identifier: str) -> str:
        return str(self.script("return document.getElementById(arguments[0]).textContent", identifier))

    def is_visible(self, identifier: str) -> bool:
        return bool(self.script("return document.getElementById(arguments[0]).checkVisibility()", identifier))

    def count(self, selector: str) -> int:
        return int(self.script("return document.querySelectorAll(arguments[0]).length", selector))

    def click(self, selector: str) -> None:
        self.script("document.querySelector(arguments[0]).click()", selector)

    def press(self, identifier: str, key: str) -> None:
        self.browser.type(identifier, key)

    def choose(self, *paths: pathlib.Path) -> None:
        """Gives files to the page, and waits for all verdicts."""
        self.begin(*paths)
        self.until_done()

    def begin(self, *paths: pathlib.Path) -> None:
        self.browser.type("file", "\n".join(map(str, paths)))

    def use_profile(self, profile: str) -> None:
        self.click(f"#{profile}")

    @property
    def verdict(self) -> str:
        return self.text("verdict")

    @property
    def fault(self) -> str:
        """The text of the fault that is shown."""
        return self.text("said")

    def lines(self) -> List[Line]:
        """The list of the files."""
        found: Sequence[Dict[str, str]] = self.script("""
            return [...document.querySelectorAll('#list [role=option]')].map((it) => ({
                name: it.querySelector('.file-name').textContent, verdict: it.querySelector('.file-verdict').textContent,
                state: it.dataset.state, fault: it.dataset.fault }))""")
        return [Line(**it) for it in found]

    def elements(self, selector: str) -> List[Dict[str, str]]:
        """The data attributes of the elements that a selector finds."""
        text = "return JSON.stringify([...document.querySelectorAll(arguments[0])].map((it) => ({ ...it.dataset })))"
        found: List[Dict[str, str]] = json.loads(self.script(text, selector))
        return found

    def texts(self, selector: str) -> List[str]:
        """The texts of the elements that a selector finds."""
        found: List[str] = self.script("return [...document.querySelectorAll(arguments[0])].map((it) => it.textContent)", selector)
        return found

    def middle(self, selector: str) -> List[float]:
        """The middle of an element, in pixels of the window."""
        text = "const it = document.querySelector(arguments[0]).getBoundingClientRect(); return [it.x + it.width / 2, it.y + it.height / 2]"
        found: List[float] = self.script(text, selector)
        return found
