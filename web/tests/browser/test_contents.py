"""What a tile holds: layers, features that are found, the map, and the record of a feature."""
from __future__ import annotations

import pathlib
import struct
from typing import List

import pytest

from browsers import Chromium
from page import Page
from samples import path_of
from wire import LINESTRING, POLYGON, feature, field, layer, point, tile_of_size

ARROW_DOWN, END, ENTER = "\ue015", "\ue010", "\ue007"
GREATEST_ID = (1 << 64) - 1
ROAD = feature(LINESTRING, [9, 400, 400, 10, 2000, 0], 7, [0, 0, 1, 1])
LAND = feature(POLYGON, [9, 4000, 4000, 26, 3000, 0, 0, 3000, 2999, 0, 15], GREATEST_ID, [0, 2])
TILE = layer("roads", [ROAD, feature(LINESTRING, [9, 400, 1000, 10, 2000, 0])], ["class", "name"], ["path", "Am Park"]) + layer(
    "parks", [LAND, point(300, 3500)], ["kind"], ["green", "grey", "wood"]
)


@pytest.fixture
def shown(page: Page, tmp_path: pathlib.Path) -> Page:
    """The page with the tile above."""
    path = tmp_path / "town.mvt"
    path.write_bytes(TILE)
    page.choose(path)
    assert page.verdict == "Valid"
    return page


def features(page: Page) -> List[str]:
    """The list of features."""
    return page.texts("#features [role=option]")


def search(page: Page, words: str) -> None:
    page.script("const it = document.getElementById('search'); it.value = arguments[0]; it.dispatchEvent(new Event('input'))", words)


def test_layers(shown: Page) -> None:
    assert shown.text("contents-summary") == "The tile has 2 layers with 4 features."
    assert shown.texts("#layers .layer-name") == ["roads", "parks"]
    first, second = shown.texts("#layers li > p")
    assert all(it in first for it in ("extent 4,096", "version 2", "2 features of lines"))
    assert "polygon" in second and "point" in second


def test_many_layers(page: Page, tmp_path: pathlib.Path) -> None:
    """The first ones are listed, and what comes after the list is still shown."""
    path = tmp_path / "layers.mvt"
    path.write_bytes(layer("a", [], [], []) * 150_000)
    page.choose(path)
    assert page.text("contents-summary") == "The tile has 150,000 layers with 0 features."
    assert len(page.texts("#layers .layer-name")) == 1000 and page.texts("#layers > li")[-1] == "and 149,000 more layers"


def test_keys_and_values(shown: Page) -> None:
    shown.script("document.querySelectorAll('#layers details').forEach((it) => { it.open = true })")
    shown.until("return document.querySelectorAll('#layers ol').length === 4")
    assert shown.texts("#layers ol > li") == ["class", "name", '"path"', '"Am Park"', "kind", '"green"', '"grey"', '"wood"']


def test_features_are_listed(shown: Page) -> None:
    assert features(shown) == [
        "roads, feature 0 LINESTRING, id 7, name: \"Am Park\"",
        "roads, feature 1 LINESTRING",
        f"parks, feature 0 POLYGON, id {GREATEST_ID}, kind: \"wood\"",
        "parks, feature 1 POINT",
    ]
    assert shown.text("found") == "4 features."


FOUND = {
    "park": ["roads, feature 0", "parks, feature 0", "parks, feature 1"],
    "CLASS": ["roads, feature 0"],
    "wood": ["parks, feature 0"],
    "7": ["roads, feature 0"],
    str(GREATEST_ID): ["parks, feature 0"],
    "sea": [],
}


@pytest.mark.parametrize("words, found", list(FOUND.items()))
def test_search(shown: Page, words: str, found: List[str]) -> None:
    search(shown, words)
    listed = features(shown)
    assert len(listed) == len(found) and all(line.startswith(it) for line, it in zip(listed, found))
    assert shown.text("found") == f"{len(found)} feature{'' if len(found) == 1 else 's'} found."


def test_feature_by_keyboard(shown: Page) -> None:
    assert not shown.is_visible("record")
    shown.press("features", ARROW_DOWN + ARROW_DOWN + ARROW_DOWN)
    assert shown.text("record-title") == "parks, feature 0"
    assert shown.texts("#record-terms dd") == ["parks (layer 1)", "0", str(GREATEST_ID), "POLYGON", "11 numbers"]
    assert shown.texts("#record-tags > div > *") == ["kind", '"wood"']
    assert shown.text("record-numbers") == "9 4000 4000 26 3000 0 0 3000 2999 0 15"
    shown.until("return document.querySelector('#map [data-selected][data-layer=\"1\"][data-feature=\"0\"]')")
    assert shown.count("#record-picture svg [data-role=path]") == 1
    shown.press("features", ENTER)
    assert shown.script("return document.activeElement.id") == "record"
    shown.press("features", END)
    assert shown.text("record-title") == "parks, feature 1"
    assert shown.text("record-no-tags") == "none" and shown.is_visible("record-no-tags")


def test_feature_by_click_on_the_map(chromium: Chromium, shown: Page) -> None:
    shown.until("return document.querySelector('#map svg [data-role=feature][data-layer=\"1\"]')")
    x, y = shown.script("""
        const it = document.querySelector('#map svg [data-role=feature][data-layer="1"][data-feature="0"]');
        it.scrollIntoView({ block: 'center' });
        const box = it.getBoundingClientRect();
        return [box.x + box.width / 2, box.y + box.height / 2]""")
    chromium.click(x, y)
    shown.until("return document.getElementById('record-title').textContent === 'parks, feature 0'")
    assert shown.script("return document.querySelector('#features [aria-selected=true]').textContent").startswith("parks, feature 0")


def test_layers_that_are_looked_at(shown: Page) -> None:
    shown.until("return document.querySelectorAll('#map svg [data-role=feature]').length === 4")
    shown.click("#layers li:first-child input")
    assert [it[:5] for it in features(shown)] == ["parks", "parks"]
    shown.until("return document.querySelectorAll('#map svg [data-role=feature]').length === 2")
    assert {it["layer"] for it in shown.elements("#map svg [data-role=feature]")} == {"1"}


def test_feature_of_a_fault(page: Page) -> None:
    """The feature that a fault names is the one that is shown."""
    page.choose(path_of("commands_before_next_feature"))
    fault = page.script("return JSON.parse(document.getElementById('said').textContent)")
    assert page.text("record-title").endswith(f", feature {fault['feature']}")
    assert page.is_visible("record")


def test_values_of_every_kind(page: Page, tmp_path: pathlib.Path) -> None:
    numbers = [field(kind, GREATEST_ID) for kind in (4, 5, 6)]
    values = [field(1, b"text"), b"\x15" + struct.pack("<f", 1.5), b"\x19" + struct.pack("<d", -0.1), *numbers, field(7, 1)]
    tags = [number for at in range(len(values)) for number in (at, at)]
    keys = b"".join(field(3, b"k%d" % at) for at in range(len(values)))
    one = field(15, 2) + field(1, b"a") + field(2, point(1, 1, None, tags)) + keys + b"".join(field(4, it) for it in values)
    path = tmp_path / "values.mvt"
    path.write_bytes(field(3, one))
    page.choose(path)
    page.press("features", ARROW_DOWN)
    # (an int is a number in two's complement; a sint is zigzag, so the greatest varint is -2^63)
    assert page.texts("#record-tags dd") == ['"text"', "float 1.5", "double -0.1", "int -1", f"uint {GREATEST_ID}", f"sint {-(1 << 63)}", "bool true"]


def test_fault_of_a_large_tile(page: Page, tmp_path: pathlib.Path) -> None:
    """Its content isn't listed, and the feature of the fault is drawn all the same."""
    crossing = feature(POLYGON, [9, 0, 16, 26, 20, 15, 0, 20, 19, 19, 15])
    path = tmp_path / "large.mvt"
    path.write_bytes(tile_of_size(5 << 20) + layer("b", [point(1, 1), crossing, *[point(2, 2, at) for at in range(300000)]]))
    page.choose(path)
    assert page.script("return JSON.parse(document.getElementById('said').textContent).code") == 504
    assert page.count("#picture svg [data-role=point][data-x='40/9'][data-y='40/9']") >= 1
    assert page.text("contents-summary").startswith("What a tile holds is listed up to 4.0 MiB")


def test_features_that_lack_what_their_tags_name(page: Page) -> None:
    page.choose(path_of("no_such_key"))
    assert "(no key " in page.text("record-tags")


def test_many_features(page: Page, tmp_path: pathlib.Path) -> None:
    path = tmp_path / "many.mvt"
    path.write_bytes(layer("points", [point(at % 4096, at // 10, at) for at in range(20000)]))
    page.choose(path)
    assert len(features(page)) == 200
    assert page.text("found") == "20,000 features. The first 200 are listed; look for words to see others."
    search(page, "19999")
    assert features(page) == ["points, feature 19999 POINT, id 19999"]
    page.press("features", ARROW_DOWN)
    assert page.text("record-title") == "points, feature 19999"


def test_long_geometry(page: Page, tmp_path: pathlib.Path) -> None:
    path = tmp_path / "line.mvt"
    path.write_bytes(layer("a", [feature(LINESTRING, [9, 0, 0, 8 * 5000 + 2, *[2, 2] * 5000])]))
    page.choose(path)
    page.press("features", ARROW_DOWN)
    assert page.text("record-numbers").endswith(" .. and 9,004 more")
    assert page.text("record-numbers").startswith("9 0 0 40002 2 2 ")
