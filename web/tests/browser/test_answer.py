"""What is said of one file: by both profiles, its advice, other faults that are confirmed, what is copied and saved."""
from __future__ import annotations

import json
import pathlib
import re
import time
import xml.etree.ElementTree as xml
from typing import Iterator, List

import pytest

from browsers import Chromium
from conftest import opened
from page import Page
from pictures import named_by
from samples import WORDS, YES, accepted, faults_of_layers, faulty_layers, link_of, path_of
from wire import POLYGON, feature, layer, point, zigzag

SVG = "{http://www.w3.org/2000/svg}"


def test_words(page: Page) -> None:
    page.choose(path_of("crossing_edges"))
    words = WORDS["faults"]["504"]
    assert page.text("sentence") == "In feature 0 of layer 0, edge 0 of ring 0 meets edge 2 of ring 0, of polygon 0, at (40/9, 40/9)."
    assert page.texts("#facts dt") == ["Place", "What it means", "Cause", "What to do"]
    said = [words[key].replace("`", "") for key in ("meaning", "cause", "remedy")]
    assert page.texts("#facts dd") == ["layer 0, feature 0, polygon 0, at (40/9, 40/9)", *said]
    assert page.text("size") == f"{path_of('crossing_edges').stat().st_size} bytes"
    assert page.text("time").endswith(" ms") and page.text("memory").endswith("iB")


def test_time(page_in_each: Page) -> None:
    """A tile that takes next to no time; Firefox' clock goes by whole milliseconds."""
    page_in_each.choose(path_of("point"))
    assert re.fullmatch(r"less than 1 ms|[1-9]\d*(\.[1-9])? ms", page_in_each.text("time"))


def test_rings_at_fault_among_many(page_in_each: Page, tmp_path: pathlib.Path) -> None:
    """Holes in rows, of which one was moved onto the one before it."""
    page = page_in_each
    tile = tmp_path / "many_holes.mvt"
    tile.write_bytes(layer("lakes", [feature(POLYGON, square_with_holes(300, moved=268))]))
    page.choose(tile)
    fault = json.loads(page.fault)
    assert (fault["code"], fault["first"]["ring"], fault["second"]["ring"]) == (504, 268, 269)
    names = page.texts("#picture .picture-places th")
    assert {"ring 268", "ring 269"} <= set(names)
    assert "more rings" in names


def square_with_holes(count: int, moved: int) -> List[int]:
    """A square of 1000, and holes of 4 in rows of 30."""
    numbers, (x, y) = [9, 0, 0, 26, 2000, 0, 0, 2000, 1999, 0, 15], (0, 1000)
    for hole in range(count):
        left, top = (10 * (hole % 30) + 10, 10 * (hole // 30) + 10)
        if hole == moved:
            left, top = left - 8, top + 2
        numbers += [9, zigzag(left - x), zigzag(top - y), 26, 0, 8, 8, 0, 0, 7, 15]
        x, y = left + 4, top
    return numbers


def test_profiles(page: Page) -> None:
    page.choose(path_of("equal_polygons"))
    assert accepted("equal_polygons", "polygon") == [YES] and page.verdict == "Valid"
    page.use_profile("feature")
    page.until_done()
    assert page.fault in accepted("equal_polygons", "feature")
    page.use_profile("polygon")
    page.until_done()
    assert page.verdict == "Valid"


def test_advice(page: Page, tmp_path: pathlib.Path) -> None:
    tile = tmp_path / "twice.mvt"
    tile.write_bytes(layer("a", [point(1, 1, 7), point(2, 2, 7)], ["k", "k"], ["v"]) + layer("b", []))
    page.choose(tile)
    assert page.verdict == "Valid"
    assert page.text("advice-summary") == "3 remarks"
    assert page.texts("#advice-list h4 + p") == [
        "In layer 0, key 1 is the same as key 0.",
        "In layer 0, feature 1 has the same id as feature 0.",
        "Layer 1 has no feature.",
    ]


@pytest.mark.parametrize("name, summary", [("empty", "1 remark"), ("point", "none"), ("truncated", "none, since the bytes are no tile")])
def test_summary_of_advice(page: Page, name: str, summary: str) -> None:
    page.choose(path_of(name))
    assert page.text("advice-summary") == summary
    assert page.is_visible("advice") == (summary == "1 remark")


CONFIRMATIONS = [
    (accepted("crossing_edges", "polygon")[0], "Confirmed: this fault is true of the tile."),
    ('{"code":201,"layer":0}', "Not confirmed: this fault isn't true of the tile."),
    ('{"code":201', "This isn't JSON."),
    ('{"code":999}', "This is JSON, but it is no fault."),
    ('{"at":0,"code":105,"field":4294967296,"scope":"tile"}', "A number of this fault is out of range."),
]


def test_other_faults(page: Page) -> None:
    page.choose(path_of("crossing_edges"))
    page.click("#other > summary")
    assert page.script("return document.getElementById('claim').value") in accepted("crossing_edges", "polygon")
    for claim, answer in CONFIRMATIONS:
        page.script("document.getElementById('claim').value = arguments[0]", claim)
        page.click("#ask")
        page.until("return document.getElementById('told').textContent === arguments[0]", answer)


def test_other_fault_by_the_other_profile(page: Page) -> None:
    claim = accepted("equal_polygons", "feature")[0]
    page.choose(path_of("equal_polygons"))
    for profile, answer in (("polygon", CONFIRMATIONS[1][1]), ("feature", CONFIRMATIONS[0][1])):
        page.use_profile(profile)
        page.until_done()
        page.script("document.getElementById('claim').value = arguments[0]", claim)
        page.click("#ask")
        page.until("return document.getElementById('told').textContent === arguments[0]", answer)


def copied(chromium: Chromium) -> str:
    answer = chromium.tools("Runtime.evaluate", expression="navigator.clipboard.readText()", awaitPromise=True, userGesture=True)
    return str(answer["result"]["value"])


@pytest.fixture
def clipboard(chromium: Chromium) -> Iterator[Chromium]:
    chromium.tools("Browser.grantPermissions", permissions=["clipboardReadWrite", "clipboardSanitizedWrite"])
    yield chromium
    chromium.tools("Browser.resetPermissions")


def test_copies(clipboard: Chromium, page: Page, http_address: str) -> None:
    page = opened(clipboard, http_address)
    page.choose(path_of("polygons_that_overlap"))
    page.use_profile("feature")
    page.until_done()
    link = http_address + link_of(path_of("polygons_that_overlap").read_bytes(), "feature")
    for button, text in (("copy-fault", page.fault), ("copy-link", link)):
        page.click(f"#{button}")
        page.until("return document.getElementById(arguments[0]).textContent === 'Copied'", button)
        assert page.text("status") == "Copied."
        assert copied(clipboard) == text


def test_copy_and_picture_of_the_chosen_fault(clipboard: Chromium, page: Page, http_address: str, tmp_path: pathlib.Path) -> None:
    tile = tmp_path / "faulty.mvt"
    tile.write_bytes(faulty_layers())
    page = opened(clipboard, http_address)
    page.choose(tile)
    page.click("#faults-list li:nth-child(3)")
    page.until_done()
    page.click("#copy-fault")
    page.until("return document.getElementById('copy-fault').textContent === 'Copied'")
    assert json.loads(copied(clipboard)) == faults_of_layers("polygon")[2]
    for it in saved_by(page, clipboard.downloads):
        assert_shows(xml.fromstring(it.read_text()), copied(clipboard))
        it.unlink()
    page.click("#copy-link")
    page.until("return document.getElementById('copy-link').textContent === 'Copied'")
    page = opened(clipboard, copied(clipboard))
    page.until_done()
    assert [json.loads(it["fault"]) for it in page.elements("#faults-list li")] == faults_of_layers("polygon")


def test_copy_without_a_clipboard(clipboard: Chromium, page: Page) -> None:
    page.choose(path_of("crossing_edges"))
    page.script("Object.defineProperty(navigator, 'clipboard', { value: undefined, configurable: true })")
    clipboard.tools("Runtime.evaluate", expression="document.getElementById('copy-fault').click()", userGesture=True)
    page.until("return document.getElementById('copy-fault').textContent === 'Copied'")
    page.script("delete navigator.clipboard")
    assert copied(clipboard) == page.fault


def test_no_link_to_a_large_tile(page: Page, tmp_path: pathlib.Path) -> None:
    tile = tmp_path / "noise.mvt"
    tile.write_bytes(layer("a", [point(at * at % 4093, at * at * at % 4093) for at in range(9000)]))
    page.choose(tile)
    assert page.verdict == "Valid" and not page.is_visible("copy-link")
    page.choose(path_of("point"))
    page.click("#list [role=option]:last-child")
    page.until_shown("point.mvt")
    assert page.is_visible("copy-link")


# a plane, with and without a close view; numbers under a plane; bytes; layers
@pytest.mark.parametrize("name", ["crossing_edges", "crossing_behind_hole", "hole_in_hole", "no_step", "truncated", "version_one"])
def test_saved_picture(chromium: Chromium, page: Page, name: str) -> None:
    page.choose(path_of(name))
    for it in saved_by(page, chromium.downloads):
        assert_shows(xml.fromstring(it.read_text()), page.fault)
        it.unlink()


def assert_shows(root: xml.Element, fault: str) -> None:
    """The picture shows what the fault names, and holds no script."""
    assert root.tag == f"{SVG}svg"
    assert not [part.tag for part in root.iter() if part.tag in (f"{SVG}script", f"{SVG}foreignObject")]
    shown = [{key[5:]: value for key, value in part.attrib.items() if key.startswith("data-")} for part in root.iter()]
    for wanted in named_by(json.loads(fault)):
        assert any(wanted.items() <= it.items() for it in shown), wanted


def saved_by(page: Page, folder: pathlib.Path) -> List[pathlib.Path]:
    """The files that the first button for saving under the fault's picture writes."""
    found = page.script("""
        const button = [...document.querySelectorAll('#picture button')].find((it) => it.textContent === 'Save as SVG');
        button.click(); return button !== undefined""")
    assert found
    for _ in range(200):
        files = [it for it in folder.iterdir() if it.suffix == ".svg" and it.stat().st_size]
        if files:
            return files
        time.sleep(0.02)
    raise AssertionError("nothing was saved")


def test_nothing_of_a_tile_is_markup(page: Page, tmp_path: pathlib.Path) -> None:
    """Names, keys and values of a tile, and names of files, are texts whatever they hold."""
    markup = "<img src=x onerror=document.title='run'><script>document.title='run'</script>"
    tile = tmp_path / "<b>name<b>.mvt"
    tile.write_bytes(layer(markup, [point(1, 1, None, [0, 0])], [markup], [markup]))
    page.choose(tile)
    assert page.text("name") == "<b>name<b>.mvt"
    page.click("#features [role=option]")
    assert markup in page.text("record-terms") and markup in page.text("record-tags")
    assert page.count("main img, main script, #answer b") == 0
    assert page.script("return document.title").startswith("<b>name<b>.mvt: valid")
