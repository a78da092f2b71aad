"""A tile with many faults: all are listed, and each is shown as the one fault of another tile is."""
from __future__ import annotations

import json
import pathlib
import subprocess
import sys
from typing import Any, Dict, Iterator, List

import pytest

from browsers import Browser, Chromium
from conftest import FILE_ADDRESS, TOP, opened
from page import Page
from pictures import is_shown
from samples import NAME_OF_LAYER, PROFILES, WORDS, accepted, faults_of_layers, faulty_layers, path_of
from wire import POINT, POLYGON, feature, layer, point, tile_of_size

DOWN, UP, HOME, END, ENTER = "\ue015", "\ue013", "\ue011", "\ue010", "\ue007"  # keys, in WebDriver
LISTED = 1000
CONFIRMED = "The separate checker confirms this fault."
MANY = 300_000


@pytest.fixture
def tile(tmp_path: pathlib.Path) -> pathlib.Path:
    path = tmp_path / "faulty.mvt"
    path.write_bytes(faulty_layers())
    return path


@pytest.fixture(scope="module")
def many_faults(tmp_path_factory: pytest.TempPathFactory) -> pathlib.Path:
    """Points that begin with a line to them (fault 401)."""
    path = tmp_path_factory.mktemp("many") / "many.mvt"
    path.write_bytes(layer("a", [feature(POINT, [10, 2, 2])] * MANY))
    return path


def listed(page: Page) -> List[Dict[str, Any]]:
    return [json.loads(it["fault"]) for it in page.elements("#faults-list [role=option]")]


def assert_shown(page: Page, faults: List[Dict[str, Any]], at: int) -> None:
    """The fault of this place in the list is shown, with its words, its picture and what the checker says of it."""
    page.until_done()
    fault, words = faults[at], WORDS["faults"][str(faults[at]["code"])]
    assert json.loads(page.fault) == fault
    assert page.text("chosen") == f"Fault {at + 1} of {len(faults)}: {words['title']}"
    assert page.text("chosen-checker") == CONFIRMED
    assert words["meaning"].replace("`", "") in page.texts("#facts dd")
    assert is_shown(page, fault)
    assert page.count("#faults-list [aria-selected=true]") == 1
    index = page.script("return document.getElementById('faults-list').getAttribute('aria-activedescendant')")
    assert index == f"faults-list-{at}"


@pytest.mark.parametrize("profile", PROFILES)
def test_each_fault(page_in_each: Page, tile: pathlib.Path, profile: str) -> None:
    page, faults = page_in_each, faults_of_layers(profile)
    page.use_profile(profile)
    page.choose(tile)
    assert listed(page) == faults and len(faults) == (8 if profile == "feature" else 7)
    assert page.text("faults-summary") == f"{len(faults)} faults: one of each layer and of each feature that has any."
    verdict = page.verdict
    assert_shown(page, faults, 0)
    for at in range(1, len(faults)):
        page.click("#next-fault")
        assert_shown(page, faults, at)
    assert page.verdict == verdict == "Not valid: " + WORDS["faults"][str(faults[0]["code"])]["title"].lower()


def test_first_fault_and_quick_ones(page: Page, tmp_path: pathlib.Path) -> None:
    """By `feature` the list begins with the verdict's fault. Of a later feature it has one that is found quickly, and confirmed."""
    overlapping = path_of("polygons_that_overlap").read_bytes()
    path = tmp_path / "overlapping.mvt"
    path.write_bytes(overlapping + overlapping.replace(NAME_OF_LAYER, b"\n\x01b", 1))
    page.use_profile("feature")
    page.choose(path)
    faults = listed(page)
    assert json.dumps(faults[0], separators=(",", ":")) in accepted("polygons_that_overlap", "feature")
    assert [(it["layer"], it["feature"]) for it in faults] == [(0, 0), (1, 0)]
    page.click("#next-fault")
    assert_shown(page, faults, 1)


def test_lines_of_the_list(page: Page, tmp_path: pathlib.Path) -> None:
    path = tmp_path / "two_layers.mvt"
    path.write_bytes(layer("a", [point(1, 1), feature(POINT, [10, 2, 2])]) + layer("a", []))
    page.choose(path)
    assert page.texts("#faults-list .fault-title") == [f"{code}: {WORDS['faults'][code]['title']}" for code in ("202", "401")]
    assert page.texts("#faults-list .small") == [
        "Layers 0 and 1 have one name.",
        "In feature 1 of layer 0, number 0 of the geometry isn't the command that is due, or nothing is due there.",
    ]


def test_keys_and_buttons(page_in_each: Page, tile: pathlib.Path) -> None:
    page, faults = page_in_each, faults_of_layers("polygon")
    page.choose(tile)
    last = len(faults) - 1
    for key, at in ((DOWN, 1), (END, last), (DOWN, last), (UP, last - 1), (HOME, 0), (UP, 0)):
        page.press("faults-list", key)
        assert_shown(page, faults, at)
    page.press("faults-list", ENTER)
    assert page.script("return document.activeElement.id") == "chosen"
    for button, at in (("previous", 0), ("next", 1), ("next", 2), ("previous", 1)):
        page.press(f"{button}-fault", ENTER)
        assert_shown(page, faults, at)
        assert page.script("return document.activeElement.id") == f"{button}-fault"
    page.click("#faults-list li:last-child")
    assert_shown(page, faults, last)
    ends = [page.script("return document.getElementById(arguments[0]).getAttribute('aria-disabled')", f"{it}-fault") for it in ("previous", "next")]
    assert ends == ["false", "true"]


def test_faults_of_a_large_tile(page: Page, tmp_path: pathlib.Path) -> None:
    """Its content isn't listed, and the feature of each fault is drawn all the same."""
    crossing = feature(POLYGON, [9, 0, 16, 26, 20, 15, 0, 20, 19, 19, 15])
    path = tmp_path / "large.mvt"
    path.write_bytes(tile_of_size(5 << 20) + layer("b", [crossing, point(1, 1), crossing]))
    page.choose(path)
    faults = listed(page)
    assert [(it["code"], it["layer"], it["feature"]) for it in faults] == [(504, 1, 0), (504, 1, 2)]
    for at in (1, 0):
        page.click(f"#faults-list li:nth-child({at + 1})")
        assert_shown(page, faults, at)


def test_one_fault_needs_no_list(page: Page, tile: pathlib.Path) -> None:
    page.choose(path_of("crossing_edges"))
    assert not page.is_visible("faults")
    page.choose(tile)
    page.click("#list li:last-child")
    page.until_shown(tile.name)
    assert page.is_visible("faults")
    page.click("#list li")
    page.until_shown("crossing_edges.mvt")
    assert not page.is_visible("faults") and page.count("#faults-list li") == 0


def test_chosen_feature(page: Page, tile: pathlib.Path) -> None:
    """Below, the record of the feature is shown that has the fault; a fault of a layer has none."""
    page.choose(tile)
    faults = faults_of_layers("polygon")
    for at, fault in enumerate(faults):
        page.click(f"#faults-list li:nth-child({at + 1})")
        assert_shown(page, faults, at)
        name = chr(ord("b") + fault["layer"])
        assert page.is_visible("record") == ("feature" in fault)
        if "feature" in fault:
            assert page.text("record-title") == f"{name}, feature 0"


def test_very_many_faults(page_in_each: Page, many_faults: pathlib.Path) -> None:
    """The first ones are listed, the number of all is said, and the page stays usable."""
    page = page_in_each
    page.choose(many_faults)
    assert page.text("faults-summary") == f"{MANY:,} faults: one of each layer and of each feature that has any. The first 1,000 are listed."
    assert listed(page) == [{"code": 401, "feature": at, "index": 0, "layer": 0} for at in range(LISTED)]
    page.press("faults-list", END)
    page.until_done()
    assert page.text("chosen").startswith(f"Fault 1,000 of {MANY:,}: ")
    assert json.loads(page.fault)["feature"] == LISTED - 1 and page.text("chosen-checker") == CONFIRMED
    assert page.script("return document.getElementById('next-fault').getAttribute('aria-disabled')") == "true"


def test_the_fault_chosen_last_is_shown(page: Page, many_faults: pathlib.Path) -> None:
    page.choose(many_faults)
    page.script("for (let at = 0; at < 300; at += 1) document.getElementById('next-fault').click()")
    page.until_done(30)
    assert json.loads(page.fault)["feature"] == 300 and page.text("chosen-checker") == CONFIRMED


@pytest.fixture
def small_chromium(tmp_path: pathlib.Path) -> Iterator[Chromium]:
    """A browser whose modules get 32 MiB of memory at most."""
    browser = Chromium(tmp_path, "--js-flags=--wasm-max-mem-pages=512")
    yield browser
    browser.quit()


def test_memory_refused_to_the_list(small_chromium: Chromium, many_faults: pathlib.Path) -> None:
    page = opened(small_chromium, FILE_ADDRESS)
    page.choose(many_faults)
    assert json.loads(page.fault) == {"code": 401, "feature": 0, "index": 0, "layer": 0}
    assert page.text("faults-summary") == "Other faults aren't listed: the browser refused the memory that the check needs."
    assert not page.is_visible("faults-list")


def test_first_fault_that_takes_too_long(browser: Browser, tmp_path: pathlib.Path) -> None:
    """Where the first fault of a feature isn't found in some seconds, a true one of the same feature is shown, and it is said so."""
    subprocess.run([sys.executable, TOP / "bench/makers/shapes.py", tmp_path, "slivers_1000000"], check=True)
    page = opened(browser, FILE_ADDRESS)
    page.use_profile("feature")
    page.choose(tmp_path / "slivers_1000000")
    fault = json.loads(page.fault)
    assert (fault["code"], fault["layer"], fault["feature"]) == (504, 0, 0)
    assert page.text("checker").startswith(f"{CONFIRMED} The search for the feature's first fault took too long")
