#!/usr/bin/env python3
"""Makes the pictures of the page in docs/, from the built page and sample tiles, with Debian's Chromium: screenshots.py [FOLDER]."""
from __future__ import annotations

import pathlib
import sys
import tempfile

from browsers import Chromium
from conftest import FILE_ADDRESS, TOP, opened
from page import Page
from samples import path_of
from test_archives import archives, go, open_archive
from test_mend import mended
from wire import POLYGON, feature, layer

sys.path.append(str(TOP / "bindings/python/tests"))
from planet import screenshots as planet

WIDTH = 1200
# the tile, the profile, and whether it is shown in the dark
SHOTS = {
    "page_crossing": ("crossing_edges", "polygon", "light"),
    "page_hole": ("hole_in_hole", "polygon", "light"),
    "page_overlap": ("polygons_that_overlap", "feature", "dark"),
    "page_bytes": ("cut_geometry", "polygon", "light"),
}
DRAWN = "return new Promise((drawn) => requestAnimationFrame(() => requestAnimationFrame(() => setTimeout(drawn, 300))))"
ARCHIVE_ZOOM = 6
# where the answer begins, and where the picture and the facts end
BOUNDS = """
const parts = [document.querySelector('.top'), document.getElementById('fault')].map((it) => it.getBoundingClientRect());
return [parts[0].top + scrollY, parts[1].bottom + scrollY + 12]"""
# where a part of the page begins, and where it ends
BOUNDS_OF_PART = "const it = document.getElementById(arguments[0]).getBoundingClientRect(); return [it.top + scrollY - 12, it.bottom + scrollY + 12]"


def shoot(page: Page, chromium: Chromium, name: str, profile: str, scheme: str) -> bytes:
    chromium.use_scheme(scheme)
    page.use_profile(profile)
    page.choose(path_of(name))
    return answer_of(page, chromium)


def answer_of(page: Page, chromium: Chromium) -> bytes:
    """The page down to the end of the fault's picture and facts."""
    page.script("document.activeElement.blur(); scrollTo(0, 0)")
    page.script(DRAWN)
    _, end = page.script(BOUNDS)
    return chromium.screenshot(WIDTH, round(end))


def part_of(page: Page, chromium: Chromium, identifier: str) -> bytes:
    page.script("document.activeElement.blur(); scrollTo(0, 0)")
    page.script(DRAWN)
    begin, end = page.script(BOUNDS_OF_PART, identifier)
    return chromium.screenshot(WIDTH, round(end - begin), round(begin))


def shoot_mended(page: Page, chromium: Chromium, folder: pathlib.Path) -> bytes:
    chromium.use_scheme("light")
    tile = folder / "lake.mvt"
    tile.write_bytes(layer("water", [feature(POLYGON, planet.LAKE, 7)]))
    page.choose(tile)
    mended(page)
    return part_of(page, chromium, "mend")


def shoot_archive(page: Page, chromium: Chromium, folder: pathlib.Path) -> bytes:
    """A made-up planet, of which all tiles in the grid are checked, and a lake is shown whose edges cross."""
    chromium.use_scheme("light")
    made = {place: it for place, it in planet.planet().items() if place[0] <= ARCHIVE_ZOOM}
    archives.whole(folder / "planet.mbtiles", [archives.Stored(*place, it.data) for place, it in made.items()], archives.TABLE + archives.INDEX)
    wrong = next(place for place, it in made.items() if place[0] == ARCHIVE_ZOOM and it.layer == "water" and it.fault and it.fault["code"] == 504)
    name = "/".join(map(str, wrong))
    open_archive(page, folder / "planet.mbtiles")
    go(page, name)
    page.until_shown(f"planet.mbtiles {name}")
    page.click("#archive-check")
    page.until("return document.querySelectorAll('#list [role=option]').length > 1")
    page.until_done()
    page.click(f"#grid [data-tile='{name}']")
    page.until_shown(f"planet.mbtiles {name}")
    return answer_of(page, chromium)


def shoot_fields(page: Page, chromium: Chromium) -> bytes:
    """A field that a click on its key leads to."""
    chromium.use_scheme("light")
    page.choose(path_of("crossing_edges"))
    page.click("#fields > summary")
    page.until("return document.querySelector('#bytes .byte')")
    page.click("#bytes [data-place='11']")
    return part_of(page, chromium, "fields")


def main() -> None:
    folder = pathlib.Path(sys.argv[1]) if sys.argv[1:] else TOP / "docs"
    with tempfile.TemporaryDirectory() as downloads:
        chromium = Chromium(pathlib.Path(downloads))
        try:
            chromium.use_width(WIDTH)
            for file, (name, profile, scheme) in SHOTS.items():
                (folder / f"{file}.png").write_bytes(shoot(opened(chromium, FILE_ADDRESS), chromium, name, profile, scheme))
            (folder / "page_mend.png").write_bytes(shoot_mended(opened(chromium, FILE_ADDRESS), chromium, pathlib.Path(downloads)))
            (folder / "page_archive.png").write_bytes(shoot_archive(opened(chromium, FILE_ADDRESS), chromium, pathlib.Path(downloads)))
            (folder / "page_fields.png").write_bytes(shoot_fields(opened(chromium, FILE_ADDRESS), chromium))
        finally:
            chromium.quit()


if __name__ == "__main__":
    main()
