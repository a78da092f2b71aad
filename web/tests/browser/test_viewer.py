"""A picture can be looked at closely: by keys, by the wheel, by dragging, by two fingers and by buttons. It leaves the page to be
scrolled."""
from __future__ import annotations

from typing import List

import pytest

from browsers import Chromium
from page import Page
from samples import path_of

PLUS, MINUS, LEFT, UP = "+", "-", "\ue012", "\ue013"
# where the first edge is in the first view, in pixels of the window
EDGE = """
const box = document.querySelector('#picture .picture-view svg [data-role=first-edge]').getBoundingClientRect();
return [box.x, box.y, box.width, box.height]"""


@pytest.fixture
def picture(chromium: Chromium, page: Page) -> Page:
    """The page with the picture of two edges that cross, in the middle of the window, and without slow movements."""
    chromium.use_scheme("light")
    return with_picture(page)


@pytest.fixture
def picture_in_each(page_in_each: Page) -> Page:
    """The same in Chromium and in Firefox."""
    return with_picture(page_in_each)


def with_picture(page: Page) -> Page:
    page.choose(path_of("crossing_edges"))
    page.script("const it = document.querySelector('#picture .picture-view'); it.id = 'view'; it.scrollIntoView({ block: 'center' })")
    page.until("return document.querySelector('#view svg [data-role=first-edge]')")
    return page


def edge(page: Page) -> List[float]:
    """The edge's left, top, width and height, when the picture rests."""
    before: List[float] = []
    while True:
        page.script("return new Promise((drawn) => requestAnimationFrame(() => requestAnimationFrame(() => setTimeout(drawn, 150))))")
        now: List[float] = page.script(EDGE)
        if now == before:
            return now
        before = now


def test_keys(picture: Page) -> None:
    begin = edge(picture)
    picture.press("view", PLUS)
    near = edge(picture)
    assert near[2] > begin[2] * 1.2 and near[3] > begin[3] * 1.2
    picture.press("view", MINUS)
    assert edge(picture) == pytest.approx(begin, abs=1)
    picture.press("view", LEFT)
    moved = edge(picture)
    assert moved[0] > begin[0] + 20 and moved[2] == pytest.approx(begin[2], abs=1)
    picture.press("view", UP)
    assert edge(picture)[1] > moved[1] + 20
    picture.press("view", "0")
    assert edge(picture) == pytest.approx(begin, abs=1)
    picture.press("view", "t")
    assert edge(picture)[2] < begin[2] / 50  # (the tile's extent is 4096, and the edge 10)
    picture.press("view", "0")
    picture.press("view", "c")
    assert edge(picture)[2] > 0


def test_grid_of_whole_coordinates(picture: Page) -> None:
    edge(picture)
    assert picture.count("#view svg [data-role=grid]") >= 1
    picture.press("view", "t")
    picture.until("return !document.querySelector('#view svg [data-role=grid]')")
    assert picture.count("#view svg [data-role=extent]") == 1


def scrolled(page: Page) -> float:
    """How far down the page is, when it rests."""
    before = -1.0
    while True:
        now: float = page.script("return new Promise((drawn) => requestAnimationFrame(() => setTimeout(() => drawn(scrollY), 150)))")
        if now == before:
            return now
        before = now


def check_that_the_wheel_scrolls(page: Page) -> None:
    width, before, (x, y) = edge(page)[2], scrolled(page), page.middle("#view")
    page.browser.wheel(x, y, 120)
    assert scrolled(page) > before + 20
    assert edge(page)[2] == pytest.approx(width, abs=1)
    page.script("document.getElementById('view').scrollIntoView({ block: 'center' })")


def check_that_the_wheel_zooms(page: Page, *, control: bool) -> None:
    """The place under the pointer stays where it is."""
    begin, before, (x, y) = edge(page), scrolled(page), page.middle("#view")
    page.browser.wheel(x, y, -120, control=control)
    near = edge(page)
    assert near[2] > begin[2] * 1.2
    assert (x - near[0]) / near[2] == pytest.approx((x - begin[0]) / begin[2], abs=0.02)
    assert scrolled(page) == before


def test_wheel(picture_in_each: Page) -> None:
    page = picture_in_each
    check_that_the_wheel_scrolls(page)
    check_that_the_wheel_zooms(page, control=True)


def test_wheel_after_a_click(picture_in_each: Page) -> None:
    """Until the picture loses the focus."""
    page = picture_in_each
    page.browser.click(*page.middle("#view"))
    check_that_the_wheel_zooms(page, control=False)
    page.script("document.getElementById('verdict').focus({ preventScroll: true })")
    check_that_the_wheel_scrolls(page)


def hint(page: Page) -> str:
    """What is said below the picture, as far as it is seen."""
    parts = "[...document.querySelectorAll('#picture .picture-hint span')]"
    return str(page.script(f"return {parts}.filter((it) => it.checkVisibility()).map((it) => it.textContent).join('')"))


def test_hint(picture_in_each: Page) -> None:
    assert hint(picture_in_each).startswith("Zoom by Ctrl and the wheel, or by the wheel after a click. Keys: + and - zoom, ")


def test_hint_for_fingers(chromium: Chromium, picture: Page) -> None:
    chromium.tools("Emulation.setTouchEmulationEnabled", enabled=True, maxTouchPoints=5)
    said = hint(picture)
    chromium.tools("Emulation.setTouchEmulationEnabled", enabled=False)
    assert said == "Zoom and move by two fingers."


def test_drag(chromium: Chromium, picture: Page) -> None:
    begin, (x, y) = edge(picture), picture.middle("#view")

    def mouse(kind: str, dx: float, dy: float) -> None:
        chromium.tools("Input.dispatchMouseEvent", type=kind, x=x + dx, y=y + dy, button="left", buttons=1, clickCount=1)

    mouse("mousePressed", 0, 0)
    for step in range(1, 5):
        mouse("mouseMoved", 10 * step, 5 * step)
    mouse("mouseReleased", 40, 20)
    assert edge(picture) == pytest.approx([begin[0] + 40, begin[1] + 20, begin[2], begin[3]], abs=2)


def test_two_fingers(chromium: Chromium, picture: Page) -> None:
    """They zoom, and the page stays where it is."""
    begin, before, (x, y) = edge(picture), scrolled(picture), picture.middle("#view")
    chromium.touch("touchStart", (x - 40, y), (x + 40, y))
    for distance in (42, 44, 46, 48, 50):
        chromium.touch("touchMove", (x - distance, y), (x + distance, y))
    chromium.touch("touchEnd")
    # (what is beyond the view isn't drawn, so the edge may not grow much)
    assert edge(picture)[2] == pytest.approx(1.25 * begin[2], rel=0.05)
    assert scrolled(picture) == before


def test_two_fingers_move(chromium: Chromium, picture: Page) -> None:
    begin, before, (x, y) = edge(picture), scrolled(picture), picture.middle("#view")
    chromium.touch("touchStart", (x - 40, y), (x + 40, y))
    for step in (10, 20, 30, 40):
        chromium.touch("touchMove", (x - 40, y + step), (x + 40, y + step))
    chromium.touch("touchEnd")
    assert edge(picture) == pytest.approx([begin[0], begin[1] + 40, begin[2], begin[3]], abs=4)
    assert scrolled(picture) == before


def test_one_finger_scrolls_the_page(chromium: Chromium, picture: Page) -> None:
    begin, before, (x, y) = edge(picture), scrolled(picture), picture.middle("#view")
    chromium.touch("touchStart", (x, y))
    for step in range(20, 161, 20):
        chromium.touch("touchMove", (x, y - step))
    chromium.touch("touchEnd")
    by = scrolled(picture) - before
    assert by > 80
    assert edge(picture) == pytest.approx([begin[0], begin[1] - by, begin[2], begin[3]], abs=1)


def test_a_tap_chooses_a_feature(chromium: Chromium, page: Page) -> None:
    page.choose(path_of("polygon_with_hole"))
    page.until("return document.querySelector('#map svg [data-role=feature]')")
    page.script("document.querySelector('#map .picture-view').scrollIntoView({ block: 'center' })")
    place = page.middle("#map svg [data-role=feature]")
    chromium.touch("touchStart", (place[0], place[1]))
    chromium.touch("touchEnd")
    page.until("return document.getElementById('record-title').textContent === 'a, feature 0'")


def test_buttons(picture: Page) -> None:
    begin = edge(picture)
    for name, grows in (("Zoom in", True), ("Zoom out", False)):
        before = edge(picture)[2]
        picture.click(f"#picture button[aria-label='{name}']")
        assert (edge(picture)[2] > before) == grows
    picture.click("#picture button[aria-label='Show the place of the fault close by']")
    edge(picture)
    picture.click("#picture button[aria-label='Show the whole']")
    assert edge(picture) == pytest.approx(begin, abs=1)
