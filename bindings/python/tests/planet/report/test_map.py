"""The map of the report, in Chromium: what pointer and keys say, and its colours."""
from __future__ import annotations

import pathlib
from typing import Tuple

import pytest

pytest.importorskip("selenium", reason="Debian's python3-selenium isn't installed")

from access import press_tab
from browsers import Chromium
from page import Page
from planet.helpers.reports import FAULTS, NAMES, SOURCE, WORDS, address, chromium, opened, quiet, report, rows, write
from planet.helpers.report_samples import MemorySource, Sample, run_of

from mvtgate.planet.records import Partition
from mvtgate.planet.report import Report

__all__ = ["address", "chromium", "quiet", "report"]  # (the fixtures)
UP, RIGHT, DOWN, LEFT, ENTER = "\ue013", "\ue014", "\ue015", "\ue012", "\ue007"  # keys, in WebDriver


SAYS = "return document.getElementById('map-cell').textContent === arguments[0]"


def cell_said(page: Page) -> str:
    return page.text("map-cell")


def hover(page: Page, chromium: Chromium, column: int, row: int, columns: int, count: int) -> None:
    """Moves the pointer over a cell of the map, which has so many columns and rows."""
    page.script("document.getElementById('map-view').scrollIntoView({ block: 'center' })")
    x, y, width, height = page.script("""
        const it = document.getElementById('map-canvas').getBoundingClientRect(); return [it.x, it.y, it.width, it.height]""")
    place = {"x": x + (column + 0.5) * width / columns, "y": y + (row + 0.5) * height / count}
    chromium.tools("Input.dispatchMouseEvent", type="mouseMoved", **place)


def text_of(place: Tuple[int, int, int]) -> str:
    """What the map says of a tile."""
    name = "/".join(map(str, place))
    if place not in SOURCE.tiles:
        return f"Tile {name}: not in the source."
    fault = SOURCE.tiles[place].fault
    if fault is None:
        return f"Tile {name}: valid."
    return f"Tile {name}: code {fault['code']} ({WORDS['faults'][str(fault['code'])]['title']})."


def test_hover_says_the_tile(report: Page, quiet: Chromium) -> None:
    count = -(-len(NAMES) // 10)
    for column, row in ((0, 0), (9, 3), (4, count - 2), (9, count - 1)):
        hover(report, quiet, column, row, 10, count)
        report.until(SAYS, text_of((7, 20 + column, 30 + row)))


def test_keys_of_the_map(report: Page) -> None:
    report.press("map-view", RIGHT)
    assert cell_said(report) == text_of((7, 21, 30))
    report.press("map-view", DOWN)
    report.press("map-view", DOWN)
    report.press("map-view", LEFT)
    report.press("map-view", LEFT)  # (there is no further cell)
    assert cell_said(report) == text_of((7, 20, 32))
    assert report.script("return document.getElementById('map-cell').getAttribute('role')") == "status"
    in_rows = sorted((it[0] for it in FAULTS), key=lambda it: (it[2], it[1]))
    later = [it for it in in_rows if (it[2], it[1]) > (32, 20)]
    report.press("map-view", "n")
    assert cell_said(report) == text_of(later[0])
    report.press("map-view", "p")
    report.press("map-view", "p")
    earlier = [it for it in in_rows if (it[2], it[1]) < (later[0][2], later[0][1])]
    assert cell_said(report) == text_of(earlier[-2])


def test_map_leads_to_a_picture(report: Page) -> None:
    """A cell names the pictures of its tiles, and Enter leads to the first one."""
    [(place, fault)] = [(it[0], it[1]) for it in FAULTS if it[1]["code"] == 501]
    report.press("map-view", RIGHT)
    for _ in range(len(FAULTS)):
        if cell_said(report) == text_of(place):
            break
        report.press("map-view", "n")
    assert report.texts("#map-links a") == ["/".join(map(str, place))]
    report.press("map-view", ENTER)
    report.until("return document.querySelector('#tile-501-0 svg')")
    assert report.script("return document.getElementById('tile-501-0').getBoundingClientRect().top") < 100


def test_colours_of_the_map(report: Page) -> None:
    """Each cell has the colour of its code's class."""
    count = -(-len(NAMES) // 10)
    classes = {1: "wire", 2: "layers", 3: "tags", 4: "commands", 5: "polygons"}
    found = report.script(
        """const { width, height } = document.getElementById('map-canvas');
        const all = document.getElementById('map-canvas').getContext('2d').getImageData(0, 0, width, height).data;
        return arguments[0].map(([column, row]) => {
            const x = Math.floor((column + 0.4) * width / 10), y = Math.floor((row + 0.4) * height / arguments[1]);
            return [...all.subarray(4 * (y * width + x), 4 * (y * width + x) + 3)];
        })""",
        [[column - 20, row - 30] for _, column, row in SOURCE.tiles],
        count,
    )
    style = "return getComputedStyle(document.documentElement).getPropertyValue(arguments[0]).trim()"
    for colour, it in zip(found, SOURCE.tiles.values()):
        name = "valid" if it.fault is None else classes[it.fault["code"] // 100]
        assert "#" + bytes(colour).hex() == report.script(style, f"--map-{name}"), it


def test_table_by_zoom(report: Page) -> None:
    [row] = rows(report, ".zoom-table tbody tr")
    worst = min(fault["code"] for _, fault, _ in FAULTS)
    assert row[:2] == ["7", str(len(NAMES))] and row[2].split()[0] == str(len(FAULTS)) and row[3] == "0"
    assert row[4].split()[0] == str(worst)


def test_cells_of_four_tiles(quiet: Chromium, tmp_path: pathlib.Path) -> None:
    """300 x 300 tiles are shown in cells of 2 x 2."""
    valid, wrong = Sample.of("point"), Sample.of("crossing_edges", layer="water")
    tiles = {(9, column, row): valid for column in range(100, 400) for row in range(50, 350)}
    tiles |= {(9, 100, 50): wrong, (9, 201, 151): wrong, (9, 200, 150): Sample.of("key_twice")}
    tiles[9, 399, 349] = Sample(b"x", error="the gzip stream is cut")
    page = opened(quiet, write(tmp_path, MemorySource("many", tiles, "folder")))
    assert page.text("map-scale") == "Zoom 9: each cell is a block of 2 by 2 tiles. 150 columns and 150 rows of cells, north is up."
    for cell, said in {
        (0, 0): "Tiles 9/100-101/50-51: 4 tiles, 1 with a fault, the worst code is 504 (Edges that meet).",
        (50, 50): "Tiles 9/200-201/150-151: 4 tiles, 2 with a fault, the worst code is 304 (Two tags of one key).",
        (149, 149): "Tiles 9/398-399/348-349: 4 tiles, none with a fault, 1 not judged.",
        (149, 0): "Tiles 9/398-399/50-51: 4 tiles, none with a fault.",
    }.items():
        hover(page, quiet, *cell, 150, 150)
        page.until(SAYS, said)


def test_zooms_are_picked(quiet: Chromium, tmp_path: pathlib.Path) -> None:
    one = MemorySource("one", {(2, 1, 1): Sample.of("point"), (3, 2, 2): Sample.of("key_twice")})
    other = MemorySource("other", {(3, 5, 6): Sample.of("no_step", layer="roads")}, "folder")
    page = opened(quiet, write(tmp_path, one, other))
    assert page.texts("#map-zoom option") == ["zoom 2, 1 tile of one", "zoom 3, 1 tile of one", "zoom 3, 1 tile of other"]
    page.press("map-view", RIGHT)
    assert cell_said(page) == "Tile 3/5/6: code 406 (Step of no length)."
    page.press("map-zoom", UP)
    page.until("return document.querySelector('tr[aria-current=true]').dataset.zoom === '1'")
    page.press("map-view", DOWN)
    assert cell_said(page) == "Tile 3/2/2: code 304 (Two tags of one key)."
    page.click("button[data-zoom='0']")
    page.until("return document.getElementById('map-scale').textContent.startsWith('Zoom 2')")
    assert rows(page, "#code-406 .tile-table tbody tr")[0][:3] == ["3/5/6", "other", "roads"]


def test_not_judged(quiet: Chromium, tmp_path: pathlib.Path) -> None:
    tiles = {(4, 3, 3): Sample.of("point"), (4, 3, 4): Sample(b"x", error="the gzip stream is cut"), (4, 8, 4): Sample.of("point")}
    source = MemorySource("some", tiles)
    run = run_of(source)
    report = Report(run, [source])
    first, second = Partition(0, 4, (3, 11), (3, 12), 2), Partition(0, 4, (8, 11), (8, 11), 1)
    [judged] = source.judged()
    judged.partition, judged.cells = first, judged.cells[:2]
    report.add(judged)
    report.add_unjudged(second, "it killed three workers")
    report.write(tmp_path / "report.html", 1, 1)
    page = opened(quiet, (tmp_path / "report.html").as_uri())
    assert page.text("verdict") == "2 tiles of 3 couldn't be judged"
    assert rows(page, "#unjudged tbody tr") == [
        ["It killed three workers", "1", "1 tile of zoom 4, column 8"],
        ["The gzip stream is cut", "1", "4/3/4"],
    ]
    hover(page, quiet, 5, 1, 6, 2)
    lost = "A part of the run that wasn't judged has tiles here or near."
    page.until("return document.getElementById('map-cell').textContent.endsWith(arguments[0])", lost)
    hover(page, quiet, 5, 0, 6, 2)
    page.until("return !document.getElementById('map-cell').textContent.endsWith(arguments[0])", lost)


def test_focus_is_seen(quiet: Chromium, report: Page) -> None:
    """The map can be reached by Tab, and has an outline then."""
    report.script("document.getElementById('map-zoom').focus()")
    press_tab(quiet)
    name, outline = report.script("const it = document.activeElement; return [it.id, getComputedStyle(it).outlineStyle]")
    assert (name, outline) == ("map-view", "solid")
    assert cell_said(report) == text_of((7, 20, 30))
    press_tab(quiet)
    assert report.script("return document.activeElement.id") != "map-view"
