"""MBTiles files and PMTiles archives, opened in place: a grid of their tiles by zoom, from which tiles are picked."""
from __future__ import annotations

import csv
import io
import json
import pathlib
import sqlite3
import sys
from typing import Dict, List

import pytest

from conftest import TOP
from page import Page
from samples import accepted, path_of
from test_mend import mended, saved

sys.path.append(str(TOP / "web/tests/archives"))
import archives
from planet.helpers.archives import archive, directory

__all__ = ["archives"]  # (for other tests, too)
FAULT = "14/8803/5373"
CELL = "return document.querySelector(`#grid [data-tile='${arguments[0]}']`)"


@pytest.fixture(scope="module")
def folder(tmp_path_factory: pytest.TempPathFactory) -> pathlib.Path:
    made = tmp_path_factory.mktemp("archives")
    archives.write(made)
    archives.whole(made / "no_index.mbtiles", archives.town(), archives.TABLE)
    return made


def open_archive(page: Page, path: pathlib.Path) -> None:
    page.begin(path)
    page.until("return document.getElementById('status').textContent.startsWith(`${arguments[0]} is open`)", path.name)
    assert page.is_visible("archive") and page.text("archive-name") == path.name


def cells(page: Page) -> Dict[str, str]:
    """The state of each tile in the grid."""
    found: Dict[str, str] = page.script("return Object.fromEntries([...document.querySelectorAll('#grid [role=gridcell]')].map((it) => [it.dataset.tile, it.dataset.state]))")
    return found


def use_zoom(page: Page, zoom: int) -> None:
    page.script("const it = document.getElementById('archive-zoom'); it.value = arguments[0]; it.dispatchEvent(new Event('change'))", str(zoom))
    page.until("return document.querySelector('#grid [role=gridcell]').dataset.tile.startsWith(`${arguments[0]}/`)", zoom)


def tiles_of_town(zoom: int) -> List[str]:
    return [f"{zoom}/{it.column}/{it.row}" for it in archives.town() if it.zoom == zoom]


def go(page: Page, place: str) -> None:
    page.script("document.getElementById('archive-place').value = arguments[0]", place)
    page.click("#archive-go")


@pytest.mark.parametrize("name", ["plain.mbtiles", "images.mbtiles", "shallow.mbtiles", "leaves.pmtiles"])
def test_tiles_are_picked(page_in_each: Page, folder: pathlib.Path, name: str) -> None:
    page = page_in_each
    open_archive(page, folder / name)
    assert page.texts("#archive-zoom option") == ["0", "3", "10", "14"]
    assert cells(page) == {"0/0/0": "tile"}
    page.click("#grid [data-tile='0/0/0']")
    page.until_shown(f"{name} 0/0/0")
    assert page.verdict == "Valid" and cells(page) == {"0/0/0": "valid"}
    use_zoom(page, 10)
    there = {tile for tile, state in cells(page).items() if state != "empty"}
    assert there == set(tiles_of_town(10)) and len(cells(page)) == 144
    use_zoom(page, 14)
    page.click(f"#grid [data-tile='{FAULT}']")
    page.until_shown(f"{name} {FAULT}")
    assert page.fault in accepted("crossing_edges", "polygon") and cells(page)[FAULT] == "fault"
    assert page.script(f"{CELL}.getAttribute('aria-selected')", FAULT) == "true"
    assert page.script(f"{CELL}.getAttribute('aria-label')", FAULT) == f"{FAULT}: 504: Edges that meet"
    # (what stands in the list isn't added again)
    page.click(f"#grid [data-tile='{FAULT}']")
    page.until_done()
    assert [it.state for it in page.lines()] == ["valid", "fault"]


def test_all_in_the_grid(page: Page, folder: pathlib.Path) -> None:
    """They are listed, filtered, mended and saved as files are."""
    open_archive(page, folder / "plain.mbtiles")
    use_zoom(page, 10)
    page.until("return document.getElementById('archive-check').textContent === 'Check the 63 tiles in the grid'")
    page.click("#archive-check")
    page.until("return document.querySelectorAll('#list [role=option]').length === 63")
    page.until_done()
    assert page.text("totals") == "63 files: 42 valid and 21 with a fault."
    assert sorted({state for state in cells(page).values()}) == ["empty", "fault", "valid"]
    wrong = [tile for tile, state in cells(page).items() if state == "fault"]
    assert sorted(wrong) == sorted(tiles_of_town(10)[1::3])
    page.click("#archive-check")
    page.until("return document.getElementById('status').textContent === 'All tiles in the grid are checked.'")
    rows = list(csv.DictReader(io.StringIO(saved(page.browser, "results.csv", lambda: page.click("#save-csv")).decode(), newline="")))
    assert {it["file"] for it in rows if it["verdict"] == "fault"} == {f"plain.mbtiles {it}" for it in wrong}
    lines = [json.loads(it) for it in saved(page.browser, "results.jsonl", lambda: page.click("#save-json")).decode().splitlines()]
    assert {(it["file"], it["tile"]) for it in lines if "fault" in it} == {("plain.mbtiles", it) for it in wrong}
    found = json.loads(saved(page.browser, "faults.geojson", lambda: page.click("#save-geojson")))
    assert {(it["properties"]["source"], it["properties"]["tile"]) for it in found["features"]} == {("plain.mbtiles", it) for it in wrong}
    page.click("#clear")
    assert set(cells(page).values()) == {"empty", "tile"} and page.is_visible("archive")


def test_a_place_that_is_typed(page: Page, folder: pathlib.Path) -> None:
    open_archive(page, folder / "plain.pmtiles")
    go(page, FAULT)
    page.until_shown(f"plain.pmtiles {FAULT}")
    assert page.script("return document.getElementById('archive-zoom').value") == "14"
    longitude, latitude = map(float, page.texts("#facts dd")[-1].split(", "))
    assert abs(longitude - (-180 + 360 * (8803 + 40 / 9 / 4096) / 2**14)) < 1e-8 and 52.4 < latitude < 52.6
    mended(page)
    assert saved(page.browser, "14-8803-5373.mended.mvt", lambda: page.click("#save-mended"))
    go(page, "14/8804/5373")
    page.until("return document.getElementById('status').textContent === 'The archive has no tile 14/8804/5373.'")
    go(page, "14/8804")
    page.until("return document.getElementById('status').textContent.startsWith('The place of a tile is')")


def test_keys_of_the_grid(page: Page, folder: pathlib.Path) -> None:
    """One cell has the focus; it goes on beyond the edge of the grid, and not beyond that of the earth."""
    focused = "return document.activeElement.dataset.tile"
    open_archive(page, folder / "many.mbtiles")
    page.until(f"{focused} === '9/99/50'")
    first = "return document.querySelector('#grid [role=gridcell]').dataset.tile"
    assert page.script(first) == "9/93/44"
    for _ in range(6):
        page.script("document.activeElement.dispatchEvent(new KeyboardEvent('keydown', { key: 'ArrowRight', bubbles: true }))")
    page.until(f"{focused} === '9/105/50'")
    assert page.script(first) == "9/99/44"
    page.script("document.activeElement.dispatchEvent(new KeyboardEvent('keydown', { key: 'Enter', bubbles: true }))")
    page.until_shown("many.mbtiles 9/105/50")
    assert page.count("#grid [tabindex='0']") == 1


def test_buttons_of_the_grid(page: Page, folder: pathlib.Path) -> None:
    open_archive(page, folder / "plain.mbtiles")
    assert page.script("return document.getElementById('archive-out').getAttribute('aria-disabled')") == "true"
    for zoom in (3, 10, 14):
        page.click("#archive-in")
        page.until("return document.getElementById('archive-zoom').value === arguments[0]", str(zoom))
    # (where the middle of the tile of zoom 10 has none, it goes to those that there are)
    assert {tile for tile, state in cells(page).items() if state == "tile"} == set(tiles_of_town(14))
    assert page.script("return document.getElementById('archive-in').getAttribute('aria-disabled')") == "true"
    before = list(cells(page))
    page.click("#archive-west")
    page.until("return document.querySelector('#grid [role=gridcell]').dataset.tile !== arguments[0]", before[0])
    assert [int(it.split("/")[1]) for it in (list(cells(page))[0], before[0])] == [8790, 8796]
    page.click("#archive-out")
    page.until("return document.getElementById('archive-zoom').value === '10'")
    assert "tile" in cells(page).values()


def test_what_cannot_be_opened(page_in_each: Page, folder: pathlib.Path, tmp_path: pathlib.Path) -> None:
    page = page_in_each
    begins = "return document.getElementById('status').textContent.startsWith(arguments[0])"
    page.begin(folder / "no_index.mbtiles")
    page.until(begins, "no_index.mbtiles couldn't be opened: it has no index for its tiles; make one: CREATE UNIQUE INDEX")
    assert not page.is_visible("archive")
    cut = tmp_path / "cut.pmtiles"
    cut.write_bytes((folder / "plain.pmtiles").read_bytes()[:300])
    page.begin(cut)
    page.until(begins, "cut.pmtiles couldn't be opened: the archive is cut")


def test_an_archive_among_files(page: Page, folder: pathlib.Path) -> None:
    page.begin(path_of("point"), folder / "plain.mbtiles", folder / "plain.pmtiles", path_of("truncated"))
    page.until("return document.getElementById('archive-name').textContent === 'plain.mbtiles'")
    page.until("return document.getElementById('totals').textContent === '2 files: 1 valid and 1 with a fault.'")
    assert [it.name for it in page.lines()] == ["point.mvt", "truncated.mvt"]
    assert page.text("archive-note") == "1 other archive came with it. One is open at a time."
    page.click("#archive-close")
    assert not page.is_visible("archive") and page.is_visible("files")
    # (the button that had the focus is gone)
    assert (page.script("return document.activeElement.id"), page.text("status")) == ("file", "The archive is closed.")


def test_archives_far_larger_than_the_memory(page_in_each: Page, tmp_path: pathlib.Path) -> None:
    """Only what is needed is read: this one has 20 GiB, nearly all of it a hole in the file."""
    page, tile, far = page_in_each, path_of("crossing_edges").read_bytes(), 20 << 30
    root = directory([(0, 1, far - len(tile), len(tile))])
    head = bytearray(archive(root, b"", b"", packing=1))
    head[64:72] = far.to_bytes(8, "little")
    path = tmp_path / "planet.pmtiles"
    with path.open("wb") as file:
        file.write(head)
        file.seek(len(head) + far - len(tile))
        file.write(tile)
    open_archive(page, path)
    page.click("#grid [data-tile='0/0/0']")
    page.until_shown("planet.pmtiles 0/0/0")
    assert page.fault in accepted("crossing_edges", "polygon")


def test_a_tile_that_is_damaged_in_its_archive(page: Page, tmp_path: pathlib.Path) -> None:
    """Bytes that are no gzip, and a row without bytes."""
    path = tmp_path / "damaged.mbtiles"
    archives.whole(path, [archives.Stored(0, 0, 0, b"\x1f\x8bnothing")], archives.TABLE + archives.INDEX)
    with sqlite3.connect(path) as database:
        database.execute("INSERT INTO tiles VALUES (1, 0, 0, NULL)")
    database.close()
    open_archive(page, path)
    page.click("#grid [data-tile='0/0/0']")
    page.until_shown("damaged.mbtiles 0/0/0")
    assert (page.verdict, page.text("sentence"), cells(page)) == ("Couldn't be read", "The gzip file is damaged.", {"0/0/0": "unreadable"})
    use_zoom(page, 1)
    page.click("#grid [data-tile='1/0/1']")
    page.until("return document.getElementById('status').textContent === \"The archive couldn't be read: there are no bytes in the database (NULL).\"")
