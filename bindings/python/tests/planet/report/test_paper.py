"""The report on paper, as Chromium prints it, and in a window of 1,200 pixels."""
from __future__ import annotations

import base64
import pathlib
import subprocess
from typing import Dict, Iterator, List

import pytest

pytest.importorskip("selenium", reason="Debian's python3-selenium isn't installed")

from browsers import WIDTH, Chromium
from page import Page
from planet.helpers.report_samples import MemorySource, Sample
from planet.helpers.reports import FAULTS, address, chromium, opened, quiet, report, rows, samples, write

__all__ = ["address", "chromium", "quiet", "report"]  # (the fixtures)

PDFTOPPM = pathlib.Path("/usr/bin/pdftoppm")
needs_poppler = pytest.mark.skipif(not PDFTOPPM.exists(), reason="Debian's poppler-utils isn't installed")

# closed and drawn pictures, and whether all bytes are there from which they are drawn
COUNTS = """
const all = [...document.querySelectorAll('details.found')];
return [all.length, all.filter((it) => it.open).length, all.filter((it) => it.querySelector('.picture svg[role=img]')).length]"""


def printed(browser: Chromium, scheme: str = "light") -> bytes:
    """The report as a PDF, as by the browser's own dialogue: A4, and no backgrounds but where a page insists on them."""
    browser.use_scheme(scheme)
    data = browser.tools("Page.printToPDF", paperWidth=8.27, paperHeight=11.69, printBackground=False)["data"]
    browser.use_scheme("light")
    return base64.b64decode(data)


def unpacked(page: Page) -> Page:
    """The page when it has unpacked its tiles, which it does soon after it was opened."""
    page.until("return document.body.dataset.pictures === 'ready'")
    return page


def pixels(folder: pathlib.Path, pdf: bytes) -> Iterator[bytes]:
    """The pixels of each page, three bytes each."""
    (folder / "report.pdf").write_bytes(pdf)
    subprocess.run([PDFTOPPM, "-r", "50", "-aa", "no", "-aaVector", "no", folder / "report.pdf", folder / "page"], check=True)
    for path in sorted(folder.glob("page-*.ppm")):
        kind, size, most, data = path.read_bytes().split(b"\n", 3)
        assert (kind, most) == (b"P6", b"255") and size
        yield data


def counted(pages: List[bytes], colours: Dict[str, str]) -> Dict[str, int]:
    """How many pixels have each of these colours."""
    found = dict.fromkeys(colours, 0)
    wanted = {bytes.fromhex(colour.removeprefix("#")): name for name, colour in colours.items()}
    for data in pages:
        for at in range(0, len(data), 3):
            name = wanted.get(data[at : at + 3])
            if name is not None:
                found[name] += 1
    return found


def test_all_pictures_are_printed(quiet: Chromium, report: Page) -> None:
    """Those too that were never scrolled to, or are closed, as they are again afterwards."""
    count, opened_before, drawn_before = unpacked(report).script(COUNTS)
    assert count > opened_before and count > drawn_before
    printed(quiet)
    assert report.script(COUNTS) == [count, opened_before, count]


def looks(page: Page) -> Dict[str, str]:
    """The colours of the map's cells, and of swatches and bars, as the screen has them."""
    style = "return getComputedStyle(document.documentElement).getPropertyValue(arguments[0]).trim()"
    return {name: page.script(style, f"--map-{name}") for name in ("wire", "layers", "tags", "commands", "polygons", "valid")}


@needs_poppler
@pytest.mark.parametrize("scheme", ["light", "dark"])
def test_colours_are_printed(quiet: Chromium, report: Page, tmp_path: pathlib.Path, scheme: str) -> None:
    """Swatches, bars and cells of each class, in the colours for paper, whatever the screen has."""
    light = looks(report)
    quiet.use_scheme("dark")
    dark = looks(report)
    assert not set(light.values()) & set(dark.values())
    pages = list(pixels(tmp_path, printed(quiet, scheme)))
    found = counted(pages[:4], light)
    # (a swatch alone is some 16 pixels at 50 dots an inch, and a cell of the map some 100)
    assert all(count > 100 for count in found.values()), found
    # (pictures have colours of their own, of which two are these)
    of_map = {name: colour for name, colour in dark.items() if name not in ("wire", "tags")}
    assert not any(counted(pages[:4], of_map).values())
    # (paper stays white)
    assert all(data[:3] == b"\xff\xff\xff" for data in pages)


@needs_poppler
def test_bars_are_printed(quiet: Chromium, tmp_path: pathlib.Path) -> None:
    """That of all faults is as wide as its ground: more than any swatch."""
    page = opened(quiet, write(tmp_path, MemorySource("some", {(0, 0, 0): Sample.of("key_twice", layer="roads")})))
    colour = bytes.fromhex(looks(page)["tags"].removeprefix("#"))
    assert max(longest_run(data, colour) for data in pixels(tmp_path, printed(quiet))) > 40


def longest_run(data: bytes, colour: bytes) -> int:
    """Of pixels of a colour side by side."""
    longest = 0
    while colour * (longest + 1) in data:
        longest += 1
    return longest


def test_long_tables_are_printed_whole(quiet: Chromium, tmp_path: pathlib.Path) -> None:
    """What has a bar for scrolling on the screen is as high as its rows on paper."""
    tiles = {(7, 3, at): Sample.of("key_twice", layer=f"layer {at}") for at in range(60)}
    page = opened(quiet, write(tmp_path, MemorySource("some", tiles)))
    height = "const it = document.querySelector('#code-304 .scroll'); return [it.scrollHeight, it.clientHeight]"
    whole, seen = page.script(height)
    assert whole > seen
    quiet.tools("Emulation.setEmulatedMedia", media="print")
    whole, seen = page.script(height)
    quiet.tools("Emulation.setEmulatedMedia", media="")
    quiet.use_scheme("light")
    assert whole == seen


WIDER = """
return [...document.querySelectorAll('.wide, .scroll')].filter((it) => it.scrollWidth > it.clientWidth).map((it) =>
    `${it.closest('[id]').id}: ${it.scrollWidth} of ${it.clientWidth}`)"""


def test_two_sources_in_1200_pixels(quiet: Chromium, tmp_path: pathlib.Path) -> None:
    """No table is wider than its place, and the rows by zoom stand below the source that they are of."""
    one, other = samples(), samples()
    one.path, other.path = "/srv/tiles/planet/2026-11-27/north.mbtiles", "/srv/tiles/planet/2026-11-27/south.mbtiles"
    other.tiles[3, 1, 1] = Sample.of("point")
    page = opened(quiet, write(tmp_path, one, other))
    assert WIDTH == 1200
    assert page.script(WIDER) == []
    found = [row[0] for row in rows(page, ".zoom-table tbody tr")]
    assert found == [one.path, "7", other.path, "3", "7"]


def test_rows_by_layer_are_all_tiles_of_a_code(quiet: Chromium, tmp_path: pathlib.Path) -> None:
    """Tiles whose fault has no layer, as many of the bytes have, are among them by their number."""
    names = [*(f"layer {at}" for at in range(8)), *[None] * 3]
    tiles = {(7, 3, at): Sample.of("truncated", layer=name) for at, name in enumerate(names)}
    page = opened(quiet, write(tmp_path, MemorySource("some", tiles)))
    found = [(row[1], int(row[2])) for row in rows(page, ".code-table .of-layer")]
    assert found[0] == ("no layer", 3)
    assert found[-1] == ("4 more layers", 4)
    assert sum(tiles for _, tiles in found) == 11


def test_faults_of_the_bytes_have_rows(report: Page) -> None:
    """Of the sample tiles, too: each code's rows by layer are all of its tiles."""
    for code in {fault["code"] for _, fault, _ in FAULTS}:
        found = [int(row[1]) for row in rows(report, f"#code-{code} .layer-table tbody tr")]
        assert sum(found) == sum(fault["code"] == code for _, fault, _ in FAULTS)
