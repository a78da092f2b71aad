"""The fields of a tile beside its bytes: each lights up the other, by pointer and by keys."""
from __future__ import annotations

import pathlib
from typing import List, Tuple

import pytest

from page import Page
from samples import path_of
from wire import POLYGON, feature, layer, point

TILE = layer("land", [point(1, 1), feature(POLYGON, [9, 0, 16, 26, 20, 15, 0, 20, 19, 19, 15], 7, [0, 0])], ["kind"], ["wood"])
OVER = """
const it = document.querySelector(arguments[0]);
it.dispatchEvent(new PointerEvent('pointerover', { bubbles: true }));"""
LEAVE = "document.getElementById(arguments[0]).dispatchEvent(new PointerEvent('pointerleave'))"


def opened(page: Page, path: pathlib.Path) -> Page:
    page.choose(path)
    page.click("#fields > summary")
    page.until("return document.querySelector('#fields-tree [role=treeitem]')")
    return page


@pytest.fixture
def shown(page_in_each: Page, tmp_path: pathlib.Path) -> Page:
    path = tmp_path / "land.mvt"
    path.write_bytes(TILE)
    return opened(page_in_each, path)


def lines(page: Page) -> List[str]:
    return page.texts("#fields-tree .field-line b")


def chosen(page: Page) -> str:
    return str(page.script("return document.querySelector('#fields-tree [aria-selected=true] > .field-line > b').textContent"))


def marked(page: Page, kind: str) -> List[int]:
    found: List[int] = page.script("return [...document.querySelectorAll(`#bytes .byte.${arguments[0]}`)].map((it) => Number(it.dataset.place))", kind)
    return found


def parts(page: Page) -> Tuple[List[int], List[int], List[int]]:
    """The bytes of key, length and content that are marked."""
    return marked(page, "of-key"), marked(page, "of-length"), marked(page, "of-content")


def press(page: Page, *keys: str) -> None:
    for key in keys:
        page.script("document.activeElement.dispatchEvent(new KeyboardEvent('keydown', { key: arguments[0], bubbles: true }))", key)


def test_the_fault_is_in_sight(shown: Page) -> None:
    """The feature that has it is what is chosen at first."""
    at = TILE.index(b"\x12", 15)
    size = TILE[at + 1]
    assert chosen(shown) == "feature 1"
    assert parts(shown) == ([at], [at + 1], list(range(at + 2, at + 2 + size)))
    assert shown.text("fields-says") == f"Byte {at}: the key of the field, of layer 0, feature 1, which has {size + 2} bytes."
    assert lines(shown)[:5] == ["tile", "layer 0", "version", "name", "feature 0"]
    # (the bytes are those of the tile)
    assert "".join(shown.texts("#bytes .byte")) == TILE.hex()


def test_a_field_lights_up_its_bytes(shown: Page) -> None:
    at = TILE.index(b"\n\x04land")
    shown.script(OVER, f"#fields-tree [data-at='{at}'] > .field-line")
    assert marked(shown, "lit") == list(range(at, at + 6))
    shown.script(LEAVE, "fields-tree")
    assert marked(shown, "lit") == []
    shown.click(f"#fields-tree [data-at='{at}'] > .field-line")
    assert parts(shown) == ([at], [at + 1], list(range(at + 2, at + 6)))
    assert chosen(shown) == "name"


def test_a_byte_lights_up_its_field(shown: Page) -> None:
    at = TILE.index(b"land")
    shown.script(OVER, f"#bytes [data-place='{at}']")
    assert shown.texts("#fields-tree .lit > .field-line > b") == ["name"]
    shown.script(LEAVE, "bytes")
    assert shown.count("#fields-tree .lit") == 0
    # what isn't open is opened by a click: the third number of the geometry
    at = TILE.index(bytes([9, 0, 16, 26]))
    shown.click(f"#bytes [data-place='{at + 2}']")
    assert chosen(shown) == "number 2" and marked(shown, "of-content") == [at + 2]
    assert shown.texts("#fields-tree [aria-selected=true] .small") == ["16: dY 8"]
    assert shown.text("fields-says") == f"Byte {at + 2}: content, of layer 0, feature 1, geometry, number 2, which has 1 byte."


def test_keys(shown: Page) -> None:
    shown.script("document.querySelector('#fields-tree [tabindex=\"0\"]').focus()")
    press(shown, "ArrowRight", "ArrowRight")
    assert chosen(shown) == "id" and "geometry" in lines(shown)
    press(shown, "ArrowDown", "ArrowDown", "ArrowDown")
    assert chosen(shown) == "geometry"
    press(shown, "ArrowRight")
    assert "number 10" in lines(shown)
    press(shown, "ArrowLeft")
    assert "number 10" not in lines(shown)
    press(shown, "ArrowLeft")
    assert chosen(shown) == "feature 1"
    press(shown, "End")
    assert chosen(shown) == "value 0"
    press(shown, "Home")
    assert chosen(shown) == "tile" and shown.script("return document.activeElement.getAttribute('aria-selected')") == "true"
    shown.script("document.getElementById('bytes').focus()")
    press(shown, "ArrowRight", "ArrowRight")
    assert chosen(shown) == "version" and marked(shown, "here") == [2]
    press(shown, "PageDown")
    assert marked(shown, "here") == [len(TILE) - 1] and chosen(shown) == "string"


def test_a_feature_that_is_chosen_elsewhere(shown: Page) -> None:
    shown.click("#features [role=option]:first-child")
    assert chosen(shown) == "feature 0"


def test_bytes_that_end_too_early(page_in_each: Page) -> None:
    """What can't be read is a line of its own."""
    page = opened(page_in_each, path_of("cut_geometry"))
    fault = page.script("return JSON.parse(document.getElementById('said').textContent)")
    assert marked(page, "here") == [fault["at"]]
    assert page.texts("#fields-tree [aria-selected=true] .small") == ["can't be read"]
    assert chosen(page) == f"bytes {fault['at']} to {path_of('cut_geometry').stat().st_size - 1}"


def test_many_parts(page: Page, tmp_path: pathlib.Path) -> None:
    """They are listed a hundred at a time, around what is chosen; bytes are shown in windows."""
    tile = layer("points", [point(at % 4096, at % 4096, at) for at in range(20000)])
    path = tmp_path / "many.mvt"
    path.write_bytes(tile)
    opened(page, path)
    page.click("#fields-tree [data-at='0'] [data-at='0'] > .field-line")
    assert page.count("#fields-tree [role=treeitem]") == 103
    assert page.texts("#fields-tree .more > .field-line") == ["19,902 after"]
    page.click("#fields-tree .more > .field-line")
    assert page.texts("#fields-tree .more > .field-line") == ["100 before", "19,802 after"] and chosen(page) == "feature 98"
    # (a screen reader says which of all it is: version and name come before the features)
    place = "const it = document.activeElement; return ['posinset', 'setsize'].map((name) => it.getAttribute(`aria-${name}`))"
    assert page.script(place) == ["101", "20002"]
    page.click("#bytes-after")
    assert page.script("return document.querySelector('#bytes .byte').dataset.place") > "0"
    page.script("document.getElementById('search').value = '12345'; document.getElementById('search').dispatchEvent(new Event('input'))")
    page.click("#features [role=option]")
    assert chosen(page) == "feature 12345"
    assert page.texts("#fields-tree .more > .field-line")[0] == "12,300 before"
    assert page.count("#bytes .byte.of-key") == 1


def test_a_tile_of_no_bytes(page: Page, tmp_path: pathlib.Path) -> None:
    path = tmp_path / "empty.mvt"
    path.write_bytes(b"")
    page.choose(path)
    assert not page.is_visible("fields")
