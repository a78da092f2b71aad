"""The list of many files: which are shown, the keys for the next fault, and the results as files; and places on the earth."""
from __future__ import annotations

import base64
import csv
import io
import json
import pathlib
from typing import List

import pytest

from page import Page
from samples import WORDS, accepted, path_of
from test_mend import saved, written

# where each sample stands; all but one have an address
FILES = {
    "a/0/0/0.mvt": "crossing_edges",
    "a/1/0/0.mvt": "point",
    "a/1/0/1.mvt": "crossing_edges",
    "a/1/1/0.mvt": "version_one",
    "a/name.mvt": "truncated",
}
BUTTONS = """
const event = new KeyboardEvent('keydown', { key: 'F8', shiftKey: arguments[0], bubbles: true, cancelable: true });
document.activeElement.dispatchEvent(event);
return event.defaultPrevented"""


@pytest.fixture
def folder(tmp_path: pathlib.Path) -> pathlib.Path:
    for name, sample in FILES.items():
        written(tmp_path, name, path_of(sample).read_bytes())
    return tmp_path / "a"


def choose_folder(page: Page, folder: pathlib.Path) -> None:
    page.browser.type("folder", str(folder))
    page.until("return document.querySelectorAll('#list [role=option]').length === arguments[0]", len(FILES))
    page.until_done()


def shown(page: Page) -> List[str]:
    found: List[str] = page.script("return [...document.querySelectorAll('#list [role=option]')].filter((it) => it.checkVisibility()).map((it) => it.querySelector('.file-name').textContent)")
    return found


def show(page: Page, value: str) -> None:
    page.script("const it = document.getElementById('show'); it.value = arguments[0]; it.dispatchEvent(new Event('change'))", value)


def test_groups(page: Page, folder: pathlib.Path) -> None:
    choose_folder(page, folder)
    assert shown(page) == list(FILES)
    title = {code: WORDS["faults"][code]["title"] for code in ("105", "201", "504")}
    assert page.texts("#show option:not([hidden])") == [
        "all files", "only faults", f"105: {title['105']} (1)", f"201: {title['201']} (1)", f"504: {title['504']} (2)"]
    show(page, "faults")
    assert shown(page) == [name for name, sample in FILES.items() if sample != "point"]
    show(page, "504")
    assert shown(page) == ["a/0/0/0.mvt", "a/1/0/1.mvt"]
    show(page, "all")
    assert shown(page) == list(FILES)


def test_keys(page: Page, folder: pathlib.Path) -> None:
    choose_folder(page, folder)
    names = [name for name, sample in FILES.items() if sample != "point"]
    for shift, name in [(False, it) for it in (*names[1:], names[0])] + [(True, names[-1]), (True, names[-2])]:
        assert page.script(BUTTONS, shift)
        page.until_shown(name)
    # (those that aren't listed are passed over, and by the arrows of the list too)
    show(page, "504")
    for name in ("a/0/0/0.mvt", "a/1/0/1.mvt", "a/0/0/0.mvt"):
        page.script(BUTTONS, False)
        page.until_shown(name)
    page.press("list", "\ue015")
    page.until_shown("a/1/0/1.mvt")
    page.click("#clear")
    page.script(BUTTONS, False)
    page.until("return document.getElementById('status').textContent === 'No file has a fault.'")


def test_results(page: Page, folder: pathlib.Path) -> None:
    choose_folder(page, folder)
    rows = list(csv.DictReader(io.StringIO(saved(page.browser, "results.csv", lambda: page.click("#save-csv")).decode(), newline="")))
    assert [(it["file"], it["verdict"]) for it in rows] == [(name, "valid" if sample == "point" else "fault") for name, sample in FILES.items()]
    assert all(it["fault"] in accepted(FILES[it["file"]], "polygon") for it in rows if it["verdict"] == "fault")
    lines = [json.loads(it) for it in saved(page.browser, "results.jsonl", lambda: page.click("#save-json")).decode().splitlines()]
    assert [it["file"] for it in lines] == list(FILES) and lines[1] == {"file": "a/1/0/0.mvt", "valid": True}
    found = json.loads(saved(page.browser, "faults.geojson", lambda: page.click("#save-geojson")))
    assert [(it["geometry"]["type"], it["properties"]["tile"], it["properties"]["code"]) for it in found["features"]] == [
        ("Point", "0/0/0", 504), ("Point", "1/0/1", 504), ("Polygon", "1/1/0", 201)]
    west, north = found["features"][1]["geometry"]["coordinates"]
    # (40/9 of 4,096 parts of a tile that begins at the meridian of 180 degrees and the equator)
    assert abs(west - (-180 + 180 * 40 / 9 / 4096)) < 1e-8 and -0.2 < north < 0


def test_no_address(page: Page) -> None:
    page.choose(path_of("truncated"), path_of("crossing_edges"))
    page.click("#save-geojson")
    page.until("return document.getElementById('status').textContent.startsWith('No name of a file with a fault ends with z/x/y')")


def test_place_on_the_earth(page: Page, folder: pathlib.Path) -> None:
    page.choose(folder / "name.mvt")
    assert "Longitude, latitude" not in page.texts("#facts dt")
    page.click("#clear")
    choose_folder(page, folder)
    page.until("return [...document.querySelectorAll('#facts dt')].some((it) => it.textContent === 'Longitude, latitude')")
    longitude, latitude = map(float, page.texts("#facts dd")[-1].split(", "))
    assert abs(longitude - (-180 + 360 * 40 / 9 / 4096)) < 1e-8 and 84 < latitude < 85.06


@pytest.mark.parametrize("spell", [lambda it: it.hex(), lambda it: "\\x" + it.hex(" "), lambda it: base64.b64encode(it).decode()])
def test_pasted_bytes(page_in_each: Page, spell: object) -> None:
    page, tile = page_in_each, path_of("crossing_edges").read_bytes()
    assert callable(spell)
    page.browser.paste(spell(tile))
    page.until_shown("pasted tile")
    assert page.fault in accepted("crossing_edges", "polygon") and page.text("size") == "24 bytes"
