"""Every sample tile, in both browsers, by both profiles, from a disk and from a static host."""
from __future__ import annotations

from typing import Dict

import pytest

from browsers import Browser
from conftest import FILE_ADDRESS, opened
from page import Page
from pictures import is_shown
from samples import NAMES, PROFILES, WORDS, YES, accepted, path_of

ARROW_DOWN = "\ue015"  # the key, in WebDriver


@pytest.fixture(params=["file", "http"])
def address(request: pytest.FixtureRequest, http_address: str) -> str:
    return FILE_ADDRESS if request.param == "file" else http_address


def test_verdicts_and_faults(browser: Browser, address: str) -> None:
    browser.complaints()
    page = opened(browser, address)
    page.begin(*map(path_of, NAMES))
    for profile in PROFILES:
        page.use_profile(profile)
        page.until_done()
        lines = page.lines()
        assert [it.name for it in lines] == [f"{name}.mvt" for name in NAMES]
        given = {name: YES if it.state == "valid" else it.fault for name, it in zip(NAMES, lines)}
        assert {name: line for name, line in given.items() if line not in accepted(name, profile)} == {}
        assert page.text("totals") == totals(profile)
    assert browser.complaints() == []


def totals(profile: str) -> str:
    valid = sum(accepted(name, profile) == [YES] for name in NAMES)
    return f"{len(NAMES)} files: {valid} valid and {len(NAMES) - valid} with a fault."


@pytest.mark.parametrize("profile", PROFILES)
def test_each_shown(browser: Browser, profile: str) -> None:
    """Goes through the list by the keyboard: each answer has its words, its checker and its picture."""
    browser.complaints()
    page = opened(browser, FILE_ADDRESS)
    page.use_profile(profile)
    page.choose(*map(path_of, NAMES))
    for at, name in enumerate(NAMES):
        if at:
            page.press("list", ARROW_DOWN)
        page.until_shown(f"{name}.mvt")
        assert_shown(page, name, profile)
    assert browser.complaints() == []


def assert_shown(page: Page, name: str, profile: str) -> None:
    lines = accepted(name, profile)
    if lines == [YES]:
        assert page.verdict == "Valid"
        assert page.text("sentence") == f"The tile keeps every rule of the gate, by the profile {profile}."
        assert not page.is_visible("fault")
        return
    assert page.fault in lines, name
    fault: Dict[str, object] = page.script("return JSON.parse(document.getElementById('said').textContent)")
    title = WORDS["faults"][str(fault["code"])]["title"]
    assert page.verdict.lower() == f"not valid: {title}".lower()
    assert page.text("code") == f"Code {fault['code']}"
    assert page.text("checker") == "The separate checker confirms this fault."
    assert is_shown(page, fault), name
