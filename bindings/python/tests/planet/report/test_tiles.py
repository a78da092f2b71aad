"""The list of all faulty tiles of the report, in Chromium: it is searched, filtered and saved, and a cell of the map leads to it."""
from __future__ import annotations

import csv
import io
import json
import pathlib
from typing import Iterator, List, Optional

import pytest

pytest.importorskip("selenium", reason="Debian's python3-selenium isn't installed")

from browsers import Chromium
from page import Page
from planet.helpers.report_samples import MemorySource, Sample, run_of
from planet.helpers.reports import FAULTS, SOURCE, WORDS, chromium, opened, quiet, rows
from planet.helpers.runs import wait_until

from mvtgate.planet.further import OneFault
from mvtgate.planet.records import Judged, Partition, Place
from mvtgate.planet.report import Report, limits

__all__ = ["chromium", "quiet"]  # (the fixtures)
RIGHT = "\ue014"  # a key, in WebDriver


def written(folder: pathlib.Path, *sources: MemorySource) -> str:
    """The report of a run over these sources, with each of its faults in the list."""
    report = Report(run_of(*sources), sources)
    for number, source in enumerate(sources):
        for judged in source.judged(number):
            report.add(judged)
            for it in judged.faults:
                assert it.fault is not None
                report.add_fault(Place(number, judged.partition.zoom, it.column, it.row), OneFault(it.fault, it.layer, it.feature_id))
    report.write(folder / "report.html", seconds=1.0, workers=1)
    return (folder / "report.html").as_uri()


def listed(chromium: Chromium, address: str) -> Page:
    page = opened(chromium, address)
    page.until("return document.getElementById('tiles').dataset.state === 'ready'")
    return page


@pytest.fixture(scope="module")
def samples_address(tmp_path_factory: pytest.TempPathFactory) -> str:
    return written(tmp_path_factory.mktemp("list"), SOURCE)


@pytest.fixture
def page(quiet: Chromium, samples_address: str) -> Iterator[Page]:
    yield listed(quiet, samples_address)


def search(page: Page, text: str) -> None:
    page.script("const it = document.getElementById('tiles-search'); it.value = arguments[0]; it.dispatchEvent(new Event('input'))", text)


def choose(page: Page, name: str, value: str) -> None:
    page.script("const it = document.getElementById(arguments[0]); it.value = arguments[1]; it.dispatchEvent(new Event('change'))", name, value)


def tiles(page: Page) -> List[str]:
    return [row[0] for row in rows(page, "#tiles-body tr")]


def until_found(page: Page, wanted: List[str]) -> None:
    page.until("return [...document.querySelectorAll('#tiles-body th')].map((it) => it.innerText.trim()).join() === arguments[0]", ",".join(wanted))


def names(*codes: int, layer: Optional[str] = None) -> List[str]:
    """The tiles with these codes, or with any, in the order of the list."""
    return ["/".join(map(str, place)) for place, fault, name in FAULTS if (not codes or fault["code"] in codes) and layer in (None, name)]


def test_all_are_listed(page: Page) -> None:
    assert len(FAULTS) <= 100 and tiles(page) == names()
    assert page.text("tiles-count") == f"{len(FAULTS)} faults in {len(FAULTS)} tiles"
    found = rows(page, "#tiles-body tr")
    for row, (place, fault, layer) in zip(found, FAULTS):
        assert row[1] == {None: "no layer", "": "empty name"}.get(layer, layer) and row[3] == str(fault["code"])
        assert row[2] == str(SOURCE.tiles[place].feature_id)
    # (what is said names what the words of the code have)
    assert all(row[4] for row in found)


def test_filters(page: Page) -> None:
    choose(page, "tiles-code", "504")
    assert tiles(page) == names(504) and page.text("tiles-count").startswith(f"{len(names(504))} faults in ")
    layer = page.script("return [...document.getElementById('tiles-layer').options].find((it) => it.text === 'water').value")
    choose(page, "tiles-layer", layer)
    assert tiles(page) == names(504, layer="water")
    choose(page, "tiles-code", "0")
    assert tiles(page) == names(layer="water")
    assert page.texts("#tiles-code option")[1:] == [f"{it}: {WORDS['faults'][str(it)]['title']}" for it in sorted({fault["code"] for _, fault, _ in FAULTS})]


def test_search(page: Page) -> None:
    place, fault, _ = FAULTS[7]
    name = "/".join(map(str, place))
    search(page, name)
    until_found(page, [name])
    search(page, "nothing has this")
    until_found(page, [])
    assert page.text("tiles-count") == "0 faults in 0 tiles"
    assert page.script("return document.getElementById('tiles-csv').disabled")


def test_cell_leads_to_its_tiles_and_a_tile_to_its_picture(page: Page) -> None:
    page.press("map-view", RIGHT)
    page.press("map-view", "n")
    cell = page.script("return document.getElementById('map-view').dataset.cell")
    page.click("#map-list")
    until_found(page, [cell])
    assert page.script("return document.getElementById('tiles').getBoundingClientRect().top") < 200
    code = rows(page, "#tiles-body tr")[0][3]
    page.click("#tiles-body a")
    page.until("return location.hash.startsWith(`#tile-${arguments[0]}-`)", code)
    page.until("return document.querySelector(`${location.hash} svg`)")
    assert page.script("return document.querySelector(location.hash).dataset.tile") == cell
    page.click("#tiles-cell")
    assert tiles(page) == names()
    # (a tile's name leads to all of its faults)
    page.click("#tiles-body tr:nth-child(3) button")
    assert tiles(page) == [names()[2]]


def saved(page: Page, chromium: Chromium, button: str, name: str) -> str:
    path = chromium.downloads / name
    page.click(button)
    wait_until(lambda: path.exists() and path.stat().st_size > 0)
    text = path.read_bytes().decode()
    path.unlink()
    return text


def test_saved_files(page: Page, quiet: Chromium) -> None:
    """What was found, and no more."""
    choose(page, "tiles-code", "504")
    lines = list(csv.DictReader(io.StringIO(saved(page, quiet, "#tiles-csv", "faults.csv"), newline="")))
    assert [f"{it['zoom']}/{it['column']}/{it['row']}" for it in lines] == names(504)
    assert all(it["source"] == SOURCE.path and it["code"] == "504" for it in lines)
    found = json.loads(saved(page, quiet, "#tiles-geojson", "faults.geojson"))
    assert [it["properties"]["tile"] for it in found["features"]] == names(504)
    assert all(it["geometry"]["type"] == "Polygon" for it in found["features"])


def test_map_is_enlarged_and_moved(page: Page, quiet: Chromium) -> None:
    """By buttons, keys, the wheel after a click, and the pointer; what it says is of the cell under the pointer all the same."""
    scale = "return Number(document.getElementById('map-view').dataset.scale)"
    page.script("document.getElementById('map-view').scrollIntoView({ block: 'center' })")
    box = page.script("const it = document.getElementById('map-canvas').getBoundingClientRect(); return [it.x, it.y, it.width, it.height]")
    x, y = box[0] + 0.55 * box[2], box[1] + 0.15 * box[3]
    quiet.tools("Input.dispatchMouseEvent", type="mouseMoved", x=x, y=y)
    before = page.text("map-cell")
    quiet.tools("Input.dispatchMouseEvent", type="mouseWheel", x=x, y=y, deltaX=0, deltaY=-100, modifiers=2)
    page.until(f"{scale} > 1")
    quiet.tools("Input.dispatchMouseEvent", type="mouseMoved", x=x + 1, y=y)
    assert page.text("map-cell") == before
    for kind, by in (("mousePressed", 0), ("mouseMoved", 20), ("mouseMoved", 60), ("mouseReleased", 60)):
        quiet.tools("Input.dispatchMouseEvent", type=kind, x=x + by, y=y, button="left", buttons=0 if kind == "mouseReleased" else 1, clickCount=1)
    assert page.script(scale) > 1
    page.click("#map-whole")
    assert page.script(scale) == 1 and page.script("return document.getElementById('map-out').disabled")
    page.click("#map-in")
    assert page.script(scale) > 1
    page.press("map-view", "o")
    assert page.script(scale) == 1


def test_hundred_thousand_faults(quiet: Chromium, tmp_path: pathlib.Path) -> None:
    """They are listed in pages, searched and counted; what has no room is told."""
    count = limits.FAULTS
    source = MemorySource("planet", {(14, 0, 0): Sample.of("point"), (14, 2**14 - 1, 2**14 - 1): Sample.of("point")})
    report = Report(run_of(source), [source])
    sentence = {"code": 504, "layer": 0, "feature": 1, "polygon": 0, "first": {"edge": 0, "ring": 0}, "second": {"edge": 2, "ring": 0}, "w": "180", "x": "800", "y": "800"}
    for at in range(count + 5):
        report.add_fault(Place(0, 14, at // 1000, at % 1000), OneFault(sentence, f"layer {at % 7}", at, [1.0, 2.0]))
    report.add(Judged(Partition(0, 14, (0, 0), (0, 0), 1), "a worker"))
    report.write(tmp_path / "report.html", 1.0, 1)
    assert (tmp_path / "report.html").stat().st_size < 20_000_000
    page = listed(quiet, (tmp_path / "report.html").as_uri())
    assert page.text("tiles-count") == f"{count:,} faults in {count:,} tiles"
    assert "The first 200,000 faults; 5 more are in faults.jsonl." in page.script("return document.getElementById('tiles').innerText")
    assert page.text("tiles-page") == f"1 to 100 of {count:,}" and len(tiles(page)) == 100
    page.click("#tiles-next")
    assert page.text("tiles-page") == f"101 to 200 of {count:,}" and tiles(page)[0] == "14/0/100"
    search(page, "14/150/77")
    until_found(page, ["14/150/77"])
    search(page, "123456")
    until_found(page, ["14/123/456"])


def test_no_list_without_faults(quiet: Chromium, tmp_path: pathlib.Path) -> None:
    page = opened(quiet, written(tmp_path, MemorySource("some", {(4, 3, 3): Sample.of("point")})))
    assert page.count("#tiles, a[href='#tiles']") == 0
    page.press("map-view", RIGHT)
    assert page.script("return document.getElementById('map-list').hidden")
