"""The report of a real run, in a real browser: its figures and faults are those of the run."""
from __future__ import annotations

import pathlib
from collections import Counter

from browsers import Chromium
from page import Page
from planet.helpers.planets import Planet
from planet.helpers.reports import chromium, draw_all, figures, opened, quiet, rows
from planet.helpers.runs import INDEX, SAMPLE, TABLE, Tile, expect_whole, run, write_database

__all__ = ["chromium", "quiet"]


def test_report_of_run(planet: Planet, tmp_path: pathlib.Path, scheduler: str, quiet: Chromium) -> None:
    it = run(tmp_path / "out", planet.path, "--scheduler", scheduler)
    expect_whole(planet, it)
    page = opened(quiet, (it.output / "report.html").as_uri())
    shown = figures(page)
    faulty = len(planet.lines)
    assert [shown[key] for key in ("tiles", "valid", "faulty", "unjudged")] == ["1,024", f"{1024 - faulty}", f"{faulty}", "0"]
    assert (shown["confirmed"], shown["workers"], shown["profile"]) == (f"{faulty}", "2", "polygon")
    codes = Counter(str(line["fault"]["code"]) for line in planet.lines.values())
    # (the cell of the code has its colour, too)
    assert {row[0]: row[2] for row in rows(page, ".code-table .of-code")} == {code: str(count) for code, count in codes.items()}
    assert_pictures(page, planet)


def assert_pictures(page: Page, planet: Planet) -> None:
    """Each picture is of a tile with this fault, and has what the fault names of edges."""
    names = draw_all(page)
    assert any(name.startswith("tile-504-") for name in names)
    for name in names:
        _, code, _ = name.split("-")
        zoom, column, row = map(int, page.script("return document.getElementById(arguments[0]).dataset.tile.split('/')", name))
        fault = planet.lines[zoom, column, row]["fault"]
        assert str(fault["code"]) == code
        for key in ("first", "second") if code == "504" else ():
            ring, edge = fault[key]["ring"], fault[key]["edge"]
            assert page.count(f"#{name} [data-role='{key}-edge'][data-ring='{ring}'][data-edge='{edge}']"), (name, key)


def test_changes_in_pictures(tmp_path: pathlib.Path, scheduler: str, quiet: Chromium) -> None:
    """What was mended is seen whole, with lines of one pixel, however few units of the grid a picture shows."""
    tile = SAMPLE["hole_outside"].tile
    path = write_database(tmp_path / "tiles.mbtiles", [Tile(3, 1, 1, tile), Tile(3, 2, 1, SAMPLE["crossing_edges"].tile)], TABLE, INDEX)
    it = run(tmp_path / "out", path, "--mend", tmp_path / "made.mbtiles", "--scheduler", scheduler)
    page = opened(quiet, (it.output / "report.html").as_uri())
    page.script("document.getElementById('changes').scrollIntoView()")
    assert {it["tile"] for it in page.elements("#changes .change")} == {"3/1/1", "3/2/1"}
    assert page.script("return [...document.querySelectorAll('.change path')].map((it) => it.getAttribute('vector-effect'))") == ["non-scaling-stroke"] * 4
    assert set(page.script("return [...document.querySelectorAll('.change use[class^=ring]')].map((it) => getComputedStyle(it).strokeWidth)")) == {"1px"}
