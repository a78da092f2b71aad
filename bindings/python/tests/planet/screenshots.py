#!/usr/bin/env python3
"""Makes the pictures of the report in docs/, in Debian's Chromium, of a planet that is made up: screenshots.py [FOLDER].

It needs what tools/library and tools/page make, and the packages that mvtgate-planet does.
"""
from __future__ import annotations

import math
import os
import pathlib
import sqlite3
import subprocess
import sys
import tempfile
from typing import Dict, Iterator, List, Optional, Tuple

TOP = pathlib.Path(__file__).resolve().parents[4]
sys.path[:0] = [str(TOP / it) for it in ("web/tests/browser", "bindings/python/src", "bindings/python/tests")]

from browsers import Chromium
from page import Page
from planet.helpers.report_samples import MemorySource, Sample, run_of
from wire import POLYGON, feature, layer

import mvtgate
from mvtgate.planet.further import OneFault
from mvtgate.planet.records import Place
from mvtgate.planet.report import Report

WIDTH, HEIGHT, MARGIN = 1200, 3000, 16  # (all that is in the window is drawn)
LAST_ZOOM = 9
BOUNDS = """
const [one, other] = [...arguments].map((it) => document.querySelector(it).getBoundingClientRect());
return [one.top + scrollY, other.bottom + scrollY]"""
# what is looked for in the list
SEARCH = """
const it = document.getElementById('tiles-search'), code = document.getElementById('tiles-code');
[it.value, code.value] = ['water', '504'];
it.dispatchEvent(new Event('input'))"""
# a shore, and in it a lake that touches it
LAKE = [9, 120, 120, 34, 280, 15, 28, 196, 47, 92, 235, 15, 15, 9, 11, 127, 34, 88, 72, 80, 39, 19, 79, 79, 15, 15]
Point = Tuple[int, int]

# draws the pictures that are open, so that nothing moves later
DRAW = """
return (async () => {
    for (const it of document.querySelectorAll('details.found[open]')) {
        it.scrollIntoView();
        await new Promise((drawn) => setTimeout(drawn, 100));
    }
})()"""


def scattered(*numbers: int) -> float:
    """A number from 0 to 1 that looks random, and is always the same for these."""
    state = 2166136261
    for it in numbers:
        state = ((state ^ (it & 0xFFFFFFFF)) * 16777619) & 0xFFFFFFFF
    state = ((state ^ state >> 15) * 2246822519) & 0xFFFFFFFF
    return ((state ^ state >> 13) * 3266489917 & 0xFFFFFFFF) / 2**32


def hills(x: float, y: float, seed: int, size: int = 6) -> float:
    """A landscape over the unit square, from 0 to 1: smooth noise of four sizes."""
    height = 0.0
    for octave in range(4):
        across, down = x * size * 2**octave, y * size * 2**octave
        column, row = math.floor(across), math.floor(down)
        u, v = (it * it * (3 - 2 * it) for it in (across - column, down - row))
        corners = [scattered(seed, octave, column + i, row + j) for j in (0, 1) for i in (0, 1)]
        smooth = (corners[0] * (1 - u) + corners[1] * u) * (1 - v) + (corners[2] * (1 - u) + corners[3] * u) * v
        height += smooth / 2 ** (octave + 1)
    return height / (1 - 1 / 16)


def ring(middle: Point, radius: float, count: int, seed: int, is_hole: bool = False) -> List[Point]:
    """A shore: points around a middle, clockwise on the screen, or the other way where it is a hole."""
    points = []
    for at in range(count):
        angle = 2 * math.pi * at / count * (-1 if is_hole else 1)
        away = radius * (0.62 + 0.7 * hills(0.5 + math.cos(angle) / 3, 0.5 + math.sin(angle) / 3, seed, 4))
        points.append((round(middle[0] + away * math.cos(angle)), round(middle[1] + away * math.sin(angle))))
    return points


def polygon(rings: List[List[Point]]) -> bytes:
    """A feature of these rings."""
    numbers: List[int] = []
    x = y = 0
    for points in rings:
        for at, (to_x, to_y) in enumerate(points):
            steps = [it << 1 ^ it >> 31 for it in (to_x - x, to_y - y)]
            numbers += [9, *steps] if at == 0 else [(len(points) - 1) << 3 | 2, *steps] if at == 1 else steps
            x, y = to_x, to_y
        numbers.append(15)
    return feature(POLYGON, numbers, 4711)


def looped(points: List[Point], at: int) -> List[Point]:
    """The points with a small loop after one of them, so that two edges cross."""
    (x, y), (to_x, to_y) = points[at], points[at + 1]
    dx, dy = to_x - x, to_y - y
    across = [(round(x + share * dx - dy), round(y + share * dy + dx)) for share in (1.7, -0.7)]
    return [*points[: at + 1], *across, *points[at + 1 :]]


def drawn(name: str, *rings: List[Point]) -> Sample:
    """A tile with one polygon, and what the gate says of it."""
    data = layer(name, [polygon(list(rings))])
    fault = mvtgate.check(data)
    assert fault is not None
    return Sample(data, fault.members, name, 4711, seconds=0.00004)


def wrong_tiles() -> List[Tuple[float, Sample]]:
    """Tiles with faults, each with its share of them."""
    lake = ring((2048, 2048), 1700, 90, 3)
    return [
        (0.34, drawn("water", looped(lake, 63))),
        (0.52, drawn("landuse", looped(ring((1900, 2100), 1500, 60, 8), 20))),
        (0.60, drawn("water", lake, ring((2048, 2048), 900, 40, 5, True), ring((2100, 2000), 250, 14, 6, True))),
        (0.66, drawn("landcover", lake, ring((3400, 500), 300, 20, 9, True))),
        (0.74, Sample.of("no_step", layer="transportation", feature_id=90210)),
        (0.81, Sample.of("ring_of_two", layer="building", feature_id=811)),
        (0.87, Sample.of("ring_without_area", layer="building", feature_id=812)),
        (0.91, Sample.of("key_twice", layer="poi", feature_id=5)),
        (0.94, Sample.of("no_such_key", layer="poi", feature_id=6)),
        (0.96, Sample.of("version_one", layer="place")),
        (0.98, Sample.of("begins_with_hole", layer="landuse", feature_id=77)),
        (1.01, Sample.of("cut_geometry", layer="water")),
    ]


def planet() -> Dict[Tuple[int, int, int], Sample]:
    """Tiles of all zooms where there is land, with faults that are frequent in some regions."""
    valid, cut, wrong = Sample.of("writers_order"), Sample.of("truncated"), wrong_tiles()
    unreadable = Sample(b"\x1f\x8b", error="the gzip stream is cut")
    tiles = {}
    for zoom, column, row, x, y in places():
        chance, frequent = scattered(zoom, column, row), hills(x, y, 21)
        share = 0.004 + max(0.0, frequent - 0.62) * 2.2
        if 0.805 < x < 0.82 and 0.2 < y < 0.5 and zoom > 6:
            tiles[zoom, column, row] = cut if chance < 0.8 else unreadable
        elif chance < share:
            kind = scattered(zoom, column, row, 1)
            tiles[zoom, column, row] = next(it for limit, it in wrong if kind < limit)
        else:
            tiles[zoom, column, row] = valid
    return tiles


def places() -> Iterator[Tuple[int, int, int, float, float]]:
    """The tiles in which there is land: zoom, column, row, and where their middles are."""
    for zoom in range(LAST_ZOOM + 1):
        for column in range(1 << zoom):
            for row in range(1 << zoom):
                x, y = (column + 0.5) / (1 << zoom), (row + 0.5) / (1 << zoom)
                if zoom < 4 or hills(x, y, 1) > 0.5 and 0.06 < y < 0.94:
                    yield zoom, column, row, x, y


def write(folder: pathlib.Path) -> str:
    """Writes the report of the planet, and returns its address."""
    source = MemorySource("/data/planet.mbtiles", planet())
    report = Report({**run_of(source), "version": mvtgate.version()}, [source])
    for judged in source.judged():
        report.add(judged)
        for it in judged.faults:
            assert it.fault is not None
            report.add_fault(Place(0, judged.partition.zoom, it.column, it.row), OneFault(it.fault, it.layer, it.feature_id))
    report.write(folder / "report.html", seconds=41.3, workers=16)
    return (folder / "report.html").as_uri()


def mend(folder: pathlib.Path) -> str:
    """Has a run mend some lakes and islands, and returns the address of its report."""
    path = folder / "lakes.mbtiles"
    database = sqlite3.connect(path)
    database.execute("CREATE TABLE tiles (zoom_level INTEGER, tile_column INTEGER, tile_row INTEGER, tile_data BLOB, UNIQUE (zoom_level, tile_column, tile_row))")
    wrong = [it.data for _, it in wrong_tiles() if it.layer in ("water", "landuse", "landcover")]
    shores = [layer("water", [polygon([looped(ring((2000, 2100), 1600, 70, 30 + at), 10 * at)])]) for at in (1, 4)] + [layer("water", [feature(POLYGON, LAKE, 7)])]
    database.executemany("INSERT INTO tiles VALUES (6, ?, 30, ?)", list(enumerate([*wrong, *shores])))
    database.commit()
    database.close()
    words = [str(path), "--mend", str(folder / "mended.mbtiles"), "--output", str(folder / "mended"), "--workers", "1"]
    done = subprocess.run([sys.executable, "-m", "mvtgate.planet", *words], env={**os.environ, "PYTHONPATH": str(TOP / "bindings/python/src")})
    assert done.returncode in (0, 1), done
    return (folder / "mended/report.html").as_uri()


def shoot(chromium: Chromium, path: pathlib.Path, scheme: str, script: str, first: str, last: Optional[str] = None) -> None:
    """A picture of the report from one element to another one."""
    chromium.use_scheme(scheme)
    page = Page(chromium)
    page.script(f"document.querySelector(arguments[0]).scrollIntoView(); {script}; document.activeElement.blur()", first)
    page.script("return new Promise((drawn) => setTimeout(drawn, 800))")
    top, bottom = page.script(BOUNDS, first, last or first)
    path.write_bytes(chromium.screenshot(WIDTH, round(bottom - top) + 2 * MARGIN, max(0, round(top) - MARGIN)))


def main() -> None:
    folder = pathlib.Path(sys.argv[1]) if sys.argv[1:] else TOP / "docs"
    with tempfile.TemporaryDirectory() as room:
        address = write(pathlib.Path(room))
        chromium = Chromium(pathlib.Path(room))
        try:
            chromium.use_width(WIDTH, HEIGHT)
            # (the picture has none, and without them there is more room)
            chromium.tools("Emulation.setScrollbarsHidden", hidden=True)
            chromium.open(address)
            chromium.script(DRAW)
            walk = "const map = document.getElementById('map-view'); map.focus()"
            shoot(chromium, folder / "report_overview.png", "light", "", ".top", "#codes")
            shoot(chromium, folder / "report_map.png", "dark", f"{walk}; {jumps(160)}", "#map")
            shoot(chromium, folder / "report_fault.png", "light", "location.hash = 'code-504'", "#code-504", "#code-504 .found")
            shoot(chromium, folder / "report_tiles.png", "light", SEARCH, "#tiles", "#tiles-body tr:nth-child(9)")
            chromium.open(mend(pathlib.Path(room)))
            shoot(chromium, folder / "report_mended.png", "light", "", "#changes")
        finally:
            chromium.quit()


def jumps(count: int) -> str:
    """A script that leads to a cell with a fault."""
    return f"for (let k = 0; k < {count}; k += 1) map.dispatchEvent(new KeyboardEvent('keydown', {{ key: 'n' }}))"


if __name__ == "__main__":
    main()
