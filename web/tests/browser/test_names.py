"""Names that a page can't foresee: ones of many letters without a space, and ones that turn the direction of text."""
from __future__ import annotations

import pathlib
import shutil
from typing import List

import pytest

from browsers import WIDTH, Chromium
from page import Page
from samples import path_of
from wire import layer, point

NARROW = 400  # pixels
LONG = "m" * 120
OVERRIDE, END_OF_ISOLATE, ARABIC = "\u202e", "\u2069", "شارع"
# they turn what follows, end what keeps that from them first, or run from right to left
TURNING = {"override": f"a{OVERRIDE}b", "end of an isolate": f"a{END_OF_ISOLATE}{OVERRIDE}b", "arabic": f"{ARABIC} 5"}
SIDES = """
const { left, right } = document.getElementById(arguments[0]).getBoundingClientRect();
return [left, right, document.documentElement.scrollWidth, document.documentElement.clientWidth]"""
# the elements that have to be scrolled sideways, but for what is for screen readers alone
WIDE = """
return [...document.querySelectorAll('main *')].filter((it) => !it.closest('svg, .away, .status'))
    .filter((it) => it.scrollWidth > it.clientWidth && it.clientWidth > 0).map((it) => it.id || it.className)"""
# the letters of some words in an element: where each begins
LETTERS = """
const [element, words] = [document.querySelector(arguments[0]), arguments[1]];
const texts = document.createTreeWalker(element, NodeFilter.SHOW_TEXT);
for (let text = texts.nextNode(); text; text = texts.nextNode()) {
  const from = text.data.indexOf(words);
  if (from < 0) continue;
  const range = document.createRange();
  return [...words].map((_, at) => { range.setStart(text, from + at); range.setEnd(text, from + at + 1); return range.getBoundingClientRect().left; });
}
return null"""


def copies(folder: pathlib.Path, *names: str) -> List[pathlib.Path]:
    """A tile with a fault, under these names."""
    paths = [folder / f"{name}.mvt" for name in names]
    for path in paths:
        shutil.copy(path_of("crossing_edges"), path)
    return paths


def check_that_it_is_in_the_window(page: Page, identifier: str) -> None:
    left, right, whole, seen = page.script(SIDES, identifier)
    assert 0 <= left < right <= seen
    assert whole == seen


def test_long_names_of_files(page_in_each: Page, tmp_path: pathlib.Path) -> None:
    """The list is as wide as it is for short names, and the verdict is beside it."""
    page = page_in_each
    page.choose(*copies(tmp_path, "a", "b"))
    width = page.script("return document.getElementById('files').offsetWidth")
    page.click("#clear")
    page.choose(*copies(tmp_path, LONG, f"{LONG}2"))
    assert page.script("return document.getElementById('files').offsetWidth") == width
    check_that_it_is_in_the_window(page, "verdict")
    left_of_answer = page.script("return document.getElementById('answer').getBoundingClientRect().left")
    assert left_of_answer < page.script("return innerWidth") / 2


@pytest.mark.parametrize("width", [WIDTH, NARROW])
def test_long_names_in_a_tile(chromium: Chromium, page: Page, tmp_path: pathlib.Path, width: int) -> None:
    """Of layers, in the sentence of a fault of theirs too, of keys and of values."""
    tile = tmp_path / "long.mvt"
    tile.write_bytes(2 * layer(LONG * 3, [point(1, 1, None, [0, 0])], [LONG * 3], [LONG * 3]))
    chromium.use_width(width)
    page.choose(tile)
    page.script("document.querySelectorAll('details').forEach((it) => { it.open = true })")
    page.click("#features [role=option]")
    page.until("return document.querySelectorAll('#layers ol > li').length === 4")
    found = [page.script(SIDES, it) for it in ("verdict", "picture", "contents", "record")]
    wide = page.script(WIDE)
    chromium.use_width(WIDTH)
    assert all(0 <= left < right <= seen and whole == seen for left, right, whole, seen in found)
    assert wide == []


def check_that_it_runs_to_the_right(page: Page, selector: str, words: str) -> None:
    lefts = page.script(LETTERS, selector, words)
    assert lefts is not None, page.texts(selector)
    assert lefts == sorted(lefts) and len(set(lefts)) > 1


@pytest.mark.parametrize("name", TURNING.values(), ids=TURNING)
def test_words_after_a_name_of_a_layer(page_in_each: Page, tmp_path: pathlib.Path, name: str) -> None:
    """They run from left to right, whatever the name does."""
    page = page_in_each
    tile = tmp_path / "names.mvt"
    tile.write_bytes(2 * layer(name, [point(1, 1, 7, [0, 0])], [name], [name]))
    page.choose(tile)
    assert page.script("return JSON.parse(document.getElementById('said').textContent).code") == 202
    page.click("#features [role=option]")
    check_that_it_runs_to_the_right(page, "#features [role=option]", ", feature 0")
    check_that_it_runs_to_the_right(page, "#record-title", ", feature 0")
    check_that_it_runs_to_the_right(page, "#record-terms dd", " (layer 0)")
    check_that_it_runs_to_the_right(page, "#picture td", ", version 2, 1 feature of points: same name")
    check_that_it_runs_to_the_right(page, "#map td", ": 1 feature of points")


@pytest.mark.parametrize("name", TURNING.values(), ids=TURNING)
def test_words_after_a_name_of_a_file(page_in_each: Page, tmp_path: pathlib.Path, name: str) -> None:
    page = page_in_each
    page.choose(*copies(tmp_path, name))
    # (the line is for screen readers alone where there is an answer; here it has to be laid out)
    page.script("document.body.dataset.state = 'ready'")
    check_that_it_runs_to_the_right(page, "#status", ": 504: Edges that meet.")
    check_that_it_runs_to_the_right(page, "#code", "Code 504")
