"""The ways in: a choice, a drop, a folder, a paste, a link; files packed by gzip or zlib, damaged ones, and ones that are too large."""
from __future__ import annotations

import gzip
import pathlib
import zlib
from typing import Callable, Dict, List

import pytest

from browsers import Browser, Chromium
from conftest import FILE_ADDRESS, opened
from page import Page
from samples import accepted, link_of, path_of
from wire import TILE_LIMIT, tile_of_size

CROSSING, POINT = path_of("crossing_edges"), path_of("point")
# in the order in which they are listed
IN_FOLDER = ("9/0.mvt.gz", "9/1.pbf", "10/2.mvt")


def written(folder: pathlib.Path, name: str, content: bytes) -> pathlib.Path:
    path = folder / name
    path.parent.mkdir(exist_ok=True)
    path.write_bytes(content)
    return path


def test_drop(chromium: Chromium, page: Page, middle_of_drop: List[float]) -> None:
    chromium.drop([CROSSING], *middle_of_drop)
    page.until_shown("crossing_edges.mvt")
    assert page.fault in accepted("crossing_edges", "polygon")
    assert page.script("return document.activeElement.id") == "verdict"


def test_drop_anywhere_of_many(chromium: Chromium, page: Page) -> None:
    chromium.drop([CROSSING, POINT, path_of("truncated")], 600, 700)
    page.until_shown("crossing_edges.mvt")
    assert [it.state for it in page.lines()] == ["fault", "valid", "fault"]
    assert page.script("return document.activeElement.id") == "list"


def test_drop_of_a_script(page_in_each: Page) -> None:
    """Files that no file manager hands over, such as those of another window."""
    page_in_each.script(
        """
        const files = new DataTransfer();
        for (const [name, bytes] of arguments[0]) files.items.add(new File([Uint8Array.from(bytes)], name));
        const words = { dataTransfer: files, bubbles: true, cancelable: true };
        for (const kind of ['dragover', 'drop']) document.body.dispatchEvent(new DragEvent(kind, words));""",
        [[name, list(path_of(name).read_bytes())] for name in ("hole_outside", "point")],
    )
    page_in_each.until_shown("hole_outside")
    assert [it.state for it in page_in_each.lines()] == ["fault", "valid"]


@pytest.fixture
def folder(tmp_path: pathlib.Path) -> pathlib.Path:
    for name in (*IN_FOLDER, "9/notes.txt"):
        written(tmp_path, name, gzip.compress(b"") if name.endswith("gz") else b"")
    return tmp_path


def test_folder_dropped(chromium: Chromium, http_address: str, folder: pathlib.Path) -> None:
    """Of a folder the files that are named like tiles are taken, in the order of their names."""
    page = opened(chromium, http_address)
    chromium.drop([folder], 600, 700)
    page.until("return document.querySelectorAll('#list [role=option]').length === 3")
    page.until_done()
    assert [it.name for it in page.lines()] == [f"{folder.name}/{it}" for it in IN_FOLDER]
    assert {it.state for it in page.lines()} == {"valid"}


def test_folder_dropped_on_a_file(chromium: Chromium, page: Page, folder: pathlib.Path) -> None:
    chromium.drop([folder], 600, 700)
    assert page.until("return document.getElementById('status').textContent.startsWith('The dropped folder')")
    assert page.text("status").endswith("use 'Choose a folder'.")


def test_folder_chosen(page: Page, folder: pathlib.Path) -> None:
    page.press("folder", str(folder))
    page.until_done()
    assert [it.name for it in page.lines()] == [f"{folder.name}/{it}" for it in IN_FOLDER]


def test_link(browser: Browser, http_address: str) -> None:
    tile = path_of("polygons_that_overlap").read_bytes()
    for address in (FILE_ADDRESS, http_address):
        page = opened(browser, address + link_of(tile, "feature"))
        page.until_done()
        assert page.fault in accepted("polygons_that_overlap", "feature")
        assert page.script("return document.getElementById('feature').checked")


def test_another_link_on_the_open_page(page: Page) -> None:
    for name in ("crossing_edges", "hole_in_hole"):
        page.script("location.hash = arguments[0]", link_of(path_of(name).read_bytes()))
        page.until("return document.getElementById('said').textContent === arguments[0]", accepted(name, "polygon")[0])
        page.until_done()


def test_letters_of_links(chromium: Chromium) -> None:
    """A tile whose base64 has both letters that differ between the two alphabets."""
    tile = b"\xfb\xff\xbf"
    for text in ("-_-_", "+/+/", "%2B%2F%2B%2F"):
        page = opened(chromium, f"{FILE_ADDRESS}#tile={text}")
        page.until_done()
        assert page.text("size") == f"{len(tile)} bytes"


def test_link_without_a_tile(chromium: Chromium) -> None:
    page = opened(chromium, f"{FILE_ADDRESS}#tile=@")
    assert page.until("return document.getElementById('status').textContent.startsWith('The tile of the link')")
    assert page.text("status") == "The tile of the link couldn't be read: its tile is no base64."
    assert page.is_visible("status")


@pytest.mark.parametrize("focus", ["verdict", "polygon", "file"])
def test_paste_of_a_link(page_in_each: Page, focus: str) -> None:
    """Also where a control has the focus that takes no text."""
    page = page_in_each
    page.script("document.getElementById(arguments[0]).focus()", focus)
    page.browser.paste("https://tiles.example/" + link_of(CROSSING.read_bytes()))
    page.until_shown("pasted link")
    assert page.fault in accepted("crossing_edges", "polygon")


NO_LINK = "The pasted text couldn't be read: it is no link with a tile, which stands after #tile=, nor a tile in hexadecimal or base64."
IS_SEEN = """
const { top, bottom } = document.getElementById('status').getBoundingClientRect();
return document.getElementById('status').checkVisibility() && top >= 0 && bottom <= innerHeight"""


@pytest.mark.parametrize("text", ["14/8802/5373", "https://tiles.example/14/8802/5373.mvt", "https://tiles.example/#tiles"])
def test_paste_of_another_text(page_in_each: Page, text: str) -> None:
    page = page_in_each
    page.browser.paste(text)
    page.until("return document.getElementById('status').textContent === arguments[0]", NO_LINK)
    assert page.script(IS_SEEN)


def test_paste_of_another_text_beside_an_answer(page_in_each: Page) -> None:
    """It is told where the reader is, and no longer than to the next choice."""
    page = page_in_each
    page.choose(CROSSING, POINT)
    page.script("document.querySelector('.proved').scrollIntoView()")
    page.browser.paste("14/8802/5373")
    page.until("return document.getElementById('status').textContent === arguments[0]", NO_LINK)
    page.until(IS_SEEN)
    page.click("#list [role=option]:last-child")
    page.until_shown("point.mvt")
    assert page.text("status") == "2 files: 1 valid and 1 with a fault."


def test_paste_into_a_field(page_in_each: Page) -> None:
    """It is the field's own."""
    page = page_in_each
    page.choose(CROSSING)
    before = page.text("status")
    page.script("document.getElementById('search').focus()")
    page.browser.paste("roads")
    page.until("return document.getElementById('search').value === 'roads'")
    assert page.text("status") == before


def test_samples_of_the_page(page: Page) -> None:
    """The links of the page have the tiles of tiles/ in them."""
    links = page.script("return [...document.querySelectorAll('[data-sample]')].map((it) => [it.dataset.sample, it.getAttribute('href')])")
    assert len(links) == 5
    for name, link in links:
        profile = "feature" if link.endswith("&profile=feature") else "polygon"
        assert link == link_of(path_of(name).read_bytes(), profile)


def test_a_sample_once_more(page_in_each: Page) -> None:
    """When all files were removed the address is still the sample's."""
    page = page_in_each
    page.click("[data-sample=crossing_edges]")
    page.until_shown("tile of the link")
    page.choose(POINT)
    page.click("#clear")
    assert page.is_visible("samples-title") and not page.is_visible("answer")
    page.click("[data-sample=crossing_edges]")
    page.until("return document.getElementById('answer').checkVisibility()")
    page.until_shown("tile of the link")
    assert page.fault in accepted("crossing_edges", "polygon")


PACKINGS: Dict[str, Callable[[bytes, int], bytes]] = {"gzip": gzip.compress, "zlib": zlib.compress}
by_each_packing = pytest.mark.parametrize("packing", PACKINGS)


@by_each_packing
@pytest.mark.parametrize("level", [1, 6, 9])
def test_packed(page_in_each: Page, tmp_path: pathlib.Path, packing: str, level: int) -> None:
    page = page_in_each
    packed = PACKINGS[packing](CROSSING.read_bytes(), level)
    page.choose(written(tmp_path, "crossing.mvt", packed))
    assert page.fault in accepted("crossing_edges", "polygon")
    assert page.text("size") == f"{CROSSING.stat().st_size} bytes, unpacked from {len(packed)} bytes"


@by_each_packing
@pytest.mark.parametrize("damage", ["cut", "sum", "more"])
def test_damaged_packing(page_in_each: Page, tmp_path: pathlib.Path, packing: str, damage: str) -> None:
    page = page_in_each
    packed = PACKINGS[packing](CROSSING.read_bytes(), 9)
    sum_at = len(packed) - (8 if packing == "gzip" else 4)
    wrong_sum = packed[:sum_at] + bytes([packed[sum_at] ^ 1]) + packed[sum_at + 1 :]
    page.choose(written(tmp_path, "damaged", {"cut": packed[:-9], "sum": wrong_sum, "more": packed + b"more"}[damage]))
    assert (page.verdict, page.text("sentence")) == ("Couldn't be read", f"The {packing} file is damaged.")
    assert not page.is_visible("details")


@by_each_packing
def test_unpacks_to_too_much(page_in_each: Page, tmp_path: pathlib.Path, packing: str) -> None:
    page = page_in_each
    page.choose(written(tmp_path, "zeros", PACKINGS[packing](bytes(TILE_LIMIT + 1), 1)))
    assert page.text("sentence") == f"The {packing} file unpacks to more than 67,108,864 bytes, the limit."


def test_file_that_is_too_large(page_in_each: Page, tmp_path: pathlib.Path) -> None:
    page = page_in_each
    for size in (TILE_LIMIT + 1, 65 << 20):
        large = tmp_path / f"{size}.mvt"
        with large.open("wb") as it:
            it.truncate(size)
        page.choose(large)
        page.script("document.querySelector('#list [role=option]:last-child').click()")
        page.until_shown(large.name)
        assert page.verdict == "Couldn't be read"
        assert page.text("sentence") == f"The file has {size:,} bytes, and the limit is 67,108,864."
        page.click("#clear")


def test_empty_file(page: Page, tmp_path: pathlib.Path) -> None:
    page.choose(written(tmp_path, "empty.mvt", b""))
    assert (page.verdict, page.text("size")) == ("Valid", "0 bytes")


def test_the_largest_tile(page_in_each: Page, tmp_path: pathlib.Path, capsys: pytest.CaptureFixture[str]) -> None:
    page = page_in_each
    tile = tile_of_size(TILE_LIMIT)
    assert len(tile) == TILE_LIMIT
    page.choose(written(tmp_path, "largest.mvt", tile))
    assert page.verdict == "Valid"
    with capsys.disabled():
        print(f"\nmeasured: {page.browser.name} checks a tile of 64 MiB in {page.text('time')}, with {page.text('memory')} of memory")
    assert page.text("size") == "64.0 MiB (67,108,864 bytes)"
    assert page.text("contents-summary") == "What a tile holds is listed up to 4.0 MiB; this one has 64.0 MiB."


def test_remove_all(page: Page) -> None:
    page.choose(CROSSING, POINT)
    page.click("#clear")
    assert page.lines() == []
    assert not page.is_visible("answer") and not page.is_visible("files")
    page.choose(POINT)
    assert page.verdict == "Valid"
