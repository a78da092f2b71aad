"""The pictures of the report, in Chromium, and what leads from them to the page."""
from __future__ import annotations

import json
import pathlib
from collections import Counter
from typing import Any, Dict

import pytest

pytest.importorskip("selenium", reason="Debian's python3-selenium isn't installed")

from browsers import Chromium
from page import Page
from pictures import is_shown
from planet.helpers.reports import BUILT_PAGE, FAULTS, NAMES, SOURCE, address, chromium, draw_all, opened, quiet, report, rows, write
from planet.helpers.report_samples import TILES, MemorySource, Sample
from planet.helpers.runs import wait_until
from samples import link_of
from wire import layer, point

__all__ = ["address", "chromium", "quiet", "report"]  # (the fixtures)


def test_pictures(report: Page) -> None:
    """Up to three of each code, which show what the fault names."""
    assert report.count("details.found svg[role=img]") == 0
    by_code = Counter(fault["code"] for _, fault, _ in FAULTS)
    names = draw_all(report)
    assert Counter(int(it.split("-")[1]) for it in names) == {code: min(tiles, 3) for code, tiles in by_code.items()}
    faults = {"/".join(map(str, place)): fault for place, fault, _ in FAULTS}
    for name in names:
        fault = faults[report.script("return document.getElementById(arguments[0]).dataset.tile", name)]
        assert json.loads(report.script("return document.querySelector(`#${arguments[0]} .said`).textContent", name)) == fault
        assert is_shown(report, fault, f"#{name}"), fault
        assert report.count(f"#{name} table.picture-places") == 1


def test_pictures_wait_until_they_are_seen(report: Page) -> None:
    closed = report.script("return [...document.querySelectorAll('details.found:not([open])')].map((it) => it.id)")
    assert closed
    report.script("location.hash = arguments[0]", closed[-1])
    report.until("return document.querySelector(`#${arguments[0]} svg`)", closed[-1])
    assert report.script("return document.getElementById(arguments[0]).open", closed[-1])
    assert all(report.count(f"#{it} svg") == 0 for it in closed[:-1])


def test_facts_of_a_tile(report: Page) -> None:
    place, fault, layer = next(it for it in FAULTS if it[1]["code"] == 504)
    sample = SOURCE.tiles[place]
    name, size, time_taken = "/".join(map(str, place)), f"{len(sample.data)} bytes", f"{sample.seconds * 1000:.0f} ms"
    [row] = rows(report, f"#code-504 tr[data-tile='{name}']")
    assert row == [name, layer or "empty name", str(sample.feature_id), size, time_taken, "yes", "show"]
    terms = dict(zip(report.texts("#tile-504-0 .facts dt"), report.texts("#tile-504-0 .facts dd")))
    zoom, column, at = place
    assert terms["Tile"] == f"zoom {zoom}, column {column}, row {at} (TMS row {2 ** zoom - 1 - at})"
    assert terms["Feature id"] == str(sample.feature_id)


@pytest.mark.skipif(not BUILT_PAGE.exists(), reason="tools/page hasn't built the page")
@pytest.mark.parametrize("code", [101, 202, 304, 406, 504])
def test_link_opens_the_tile(report: Page, code: int) -> None:
    """The page that is beside the report shows the same fault, or another one that is accepted for this tile."""
    sample = next(SOURCE.tiles[place] for place, fault, _ in FAULTS if fault["code"] == code)
    assert sample.feature_id is not None
    lines = (TILES / f"expected/{NAMES[sample.feature_id]}.check").read_text().splitlines()
    accepted = [json.loads(it) for it in lines]
    report.script("document.querySelector(`#tile-${arguments[0]}-0`).scrollIntoView()", code)
    link = report.until("return document.querySelector(`#tile-${arguments[0]}-0 .open-tile`)?.href", code)
    page = Page(report.browser)
    said = report.script("return document.querySelector(`#tile-${arguments[0]}-0 .said`).textContent", code)
    page.browser.open(link)
    page.until("return document.body.dataset.state === 'done'")
    assert json.loads(said) in accepted and json.loads(page.fault) in accepted


def test_no_page_no_links(quiet: Chromium, tmp_path: pathlib.Path) -> None:
    page = opened(quiet, write(tmp_path, MemorySource("some", {(4, 3, 3): Sample.of("key_twice")}), page=None))
    draw_all(page)
    assert page.texts(".buttons") == ["Save the tile"]


def one_tile(data: bytes, fault: Dict[str, Any]) -> MemorySource:
    return MemorySource("some", {(4, 3, 3): Sample(data, fault, "a")})


def test_link_by_the_other_profile(quiet: Chromium, tmp_path: pathlib.Path) -> None:
    tile = Sample.of("polygons_that_overlap", "feature", layer="a")
    page = opened(quiet, write(tmp_path, MemorySource("some", {(4, 3, 3): tile}), profile="feature", page="../other.html"))
    draw_all(page)
    link = page.script("return document.querySelector('.open-tile').getAttribute('href')")
    assert link == "../other.html" + link_of(tile.data, "feature")
    assert page.script("return document.querySelector('.open-tile').rel") == "noopener"


TWICE = {"code": 202, "first": 0, "second": 1}  # two layers of one name
NOISE = layer("a", [point(at * at % 4093, at * at * at % 4093) for at in range(9000)]) + layer("a", [])
EVEN = layer("a", [point(1, 1)] * 9000) + layer("a", [])


def test_no_link_to_a_large_tile(quiet: Chromium, tmp_path: pathlib.Path) -> None:
    """Where even the packed tile is too long for an address it can be saved."""
    page = opened(quiet, write(tmp_path, one_tile(NOISE, TWICE)))
    draw_all(page)
    assert page.texts(".buttons > *") == ["Save the tile"]
    assert saved(page, quiet, "4-3-3.mvt") == NOISE


def test_packed_tile(quiet: Chromium, tmp_path: pathlib.Path) -> None:
    """A large tile that is packed to a short address."""
    page = opened(quiet, write(tmp_path, one_tile(EVEN, TWICE)))
    draw_all(page)
    assert is_shown(page, TWICE, "#tile-202-0")
    assert page.texts(".buttons > *") == ["Open this tile in the page", "Save the tile"]
    assert len(page.script("return document.querySelector('.open-tile').href")) < 2000
    assert saved(page, quiet, "4-3-3.mvt") == EVEN


def saved(page: Page, chromium: Chromium, name: str) -> bytes:
    """What the first button for it saves."""
    path = chromium.downloads / name
    page.click(".buttons button")
    wait_until(lambda: path.exists() and path.stat().st_size > 0)
    data = path.read_bytes()
    path.unlink()
    return data


def test_saved_tile(quiet: Chromium, tmp_path: pathlib.Path) -> None:
    """What the button saves are the tile's bytes."""
    tile = Sample.of("crossing_edges")
    page = opened(quiet, write(tmp_path, MemorySource("some", {(5, 6, 7): tile})))
    draw_all(page)
    assert saved(page, quiet, "5-6-7.mvt") == tile.data
