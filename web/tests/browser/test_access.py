"""The page by keyboard and with a screen reader, at a phone's width, in light and in dark."""
from __future__ import annotations

import pathlib
import shutil
from typing import Dict, List, Set

import pytest

from access import NAMED_ROLES, PHONE, low_contrasts, press_tab, roles_and_names, small_targets
from browsers import WIDTH, Chromium
from page import Page
from samples import faulty_layers, path_of
from test_archives import archives, open_archive, use_zoom

DOWN, UP, HOME, END, PAGE_DOWN, ENTER = "\ue015", "\ue013", "\ue011", "\ue010", "\ue00f", "\ue007"  # keys, in WebDriver

# Scripts that show much of the page
STATES: Dict[str, List[str]] = {
    "begin": [],
    "fault": ["crossing_edges"],
    "bytes": ["truncated"],
    "valid": ["writers_order"],
    "advice": ["empty"],
    "many": ["hole_in_hole", "point", "no_step"],
    "faults": [],
    "archive": [],
}


@pytest.fixture(params=list(STATES))
def state(request: pytest.FixtureRequest, page: Page, tmp_path: pathlib.Path) -> Page:
    """The page in one of these states, with all that can be opened open."""
    paths = [path_of(name) for name in STATES[request.param]]
    if request.param == "faults":
        paths = [tmp_path / "faulty.mvt"]
        paths[0].write_bytes(faulty_layers())
    if request.param == "archive":
        archives.whole(tmp_path / "town.mbtiles", archives.town(), archives.TABLE + archives.INDEX)
        open_archive(page, tmp_path / "town.mbtiles")
        use_zoom(page, 10)
        page.click("#archive-check")
        page.until("return document.querySelectorAll('#list [role=option]').length > 1")
        page.until_done()
    elif paths:
        page.choose(*paths)
    if request.param != "begin":
        page.script("document.querySelectorAll('details').forEach((it) => { it.open = true })")
        page.script("document.querySelector('#features [role=option]')?.click()")
    return page


def test_controls_have_names(chromium: Chromium, state: Page) -> None:
    found = roles_and_names(chromium)
    assert {"button", "radio", "main", "heading", "region"} <= {role for role, _ in found}
    assert [role for role, name in found if role in NAMED_ROLES and not name] == []


def test_names_of_controls_differ(chromium: Chromium, page: Page) -> None:
    """Regions and pictures can be told apart by their names."""
    page.choose(path_of("crossing_edges"))
    page.click("#features [role=option]")
    found = roles_and_names(chromium)
    assert {("group", it) for it in ("Picture of the fault", "Map of the features", "Picture of the feature")} <= set(found)
    assert {("region", it) for it in ("Not valid: edges that meet", "What the tile holds", "a, feature 0")} <= set(found)


def test_headings_go_down_by_one(state: Page) -> None:
    levels = state.script("""
        return [...document.querySelectorAll('h1, h2, h3, h4, h5')].filter((it) => it.checkVisibility()).map((it) => Number(it.tagName[1]))""")
    assert levels[0] == 1 and levels.count(1) == 1
    assert all(after <= before + 1 for before, after in zip(levels, levels[1:]))


def test_language_and_title(page: Page) -> None:
    assert page.script("return document.documentElement.lang") == "en"
    page.choose(path_of("crossing_edges"))
    assert page.script("return document.title") == "crossing_edges.mvt: 504: Edges that meet - mvtgate"


def test_verdict_is_read_out(chromium: Chromium, page: Page) -> None:
    """The line with the role status says what happened, also where it isn't seen; the focus is on the verdict."""
    page.choose(path_of("crossing_edges"))
    assert "status" in {role for role, _ in roles_and_names(chromium)}
    assert page.text("status") == "crossing_edges.mvt: 504: Edges that meet."
    assert page.script("return document.activeElement.id") == "verdict"
    assert page.script("return document.getElementById('status').getAttribute('role')") == "status"


@pytest.mark.parametrize("scheme", ["light", "dark"])
def test_contrast(chromium: Chromium, state: Page, scheme: str) -> None:
    chromium.use_scheme(scheme)
    low, count = low_contrasts(state)
    ground = state.script("return getComputedStyle(document.body).backgroundColor")
    chromium.use_scheme("light")
    assert low == [] and count > 20
    assert (ground == "rgb(18, 22, 27)") == (scheme == "dark")


def test_narrow_window(chromium: Chromium, state: Page) -> None:
    """At a phone's width nothing has to be scrolled sideways, and no button is too small for a finger."""
    chromium.use_width(PHONE)
    width, seen = state.script("return [document.documentElement.scrollWidth, document.documentElement.clientWidth]")
    small = small_targets(state)
    chromium.use_width(WIDTH)
    assert width == seen <= PHONE
    assert small == []


def test_long_names(chromium: Chromium, page: Page, tmp_path: pathlib.Path) -> None:
    """At a phone's width the names of files are shown whole, though they have no place for a line's end."""
    names = [letter * 90 + ".mvt" for letter in "mw"]
    for name in names:
        shutil.copy(path_of("crossing_edges"), tmp_path / name)
    chromium.use_width(PHONE)
    page.choose(*(tmp_path / name for name in names))
    ends = page.script(
        """const range = document.createRange();
        return [...document.querySelectorAll('#name, .file-name')].map((it) => {
            range.selectNodeContents(it);
            return [range.getBoundingClientRect().right, it.parentElement.getBoundingClientRect().right];
        })"""
    )
    chromium.use_width(WIDTH)
    assert len(ends) == 3
    assert all(text <= box <= PHONE for text, box in ends)


FOCUSED = """
const it = document.activeElement;
const seen = it.type === 'file' ? it.nextElementSibling : it;
const box = seen.getBoundingClientRect();
const name = it.id || it.getAttribute('aria-label') || it.textContent;
return [name, getComputedStyle(seen).outlineStyle, box.width * box.height, it === document.body]
"""


def test_tab_goes_through_all_controls(chromium: Chromium, page: Page) -> None:
    """Each stop is seen, by an outline. The picture can be reached, and left again."""
    page.choose(path_of("crossing_edges"), path_of("point"))
    page.script("document.getElementById('file').focus()")
    stops: Set[str] = set()
    for _ in range(60):
        press_tab(chromium)
        name, outline, area, is_end = page.script(FOCUSED)
        if is_end:
            break
        stops.add(name)
        assert outline != "none" and area > 0, name
    else:
        raise AssertionError("the focus doesn't come to the end of the page")
    assert {"folder", "polygon", "list", "clear", "copy-link", "said", "copy-fault", "search", "features", "Zoom in"} <= stops
    assert any(it.startswith("The whole.") for it in stops)


def test_tab_goes_through_the_faults(chromium: Chromium, page: Page, tmp_path: pathlib.Path) -> None:
    """The list and its buttons, of which the one that leads nowhere can be reached and says so, come one after the other."""
    path = tmp_path / "faulty.mvt"
    path.write_bytes(faulty_layers())
    page.choose(path)
    page.script("document.getElementById('faults-list').focus()")
    stops = []
    for _ in range(3):
        name, outline, area, _ = page.script(FOCUSED)
        assert outline != "none" and area > 0, name
        stops.append(name)
        press_tab(chromium)
    assert stops == ["faults-list", "previous-fault", "next-fault"]
    found = roles_and_names(chromium)
    assert {("listbox", "All faults"), ("button", "Previous fault"), ("button", "Next fault"), ("region", "All faults")} <= set(found)


def test_keys_of_the_list(page: Page) -> None:
    page.choose(path_of("crossing_edges"), path_of("point"), path_of("truncated"))
    assert page.script("return document.activeElement.id") == "list"
    for key, name in ((DOWN, "point"), (END, "truncated"), (UP, "point"), (HOME, "crossing_edges"), (PAGE_DOWN, "truncated")):
        page.press("list", key)
        page.until_shown(f"{name}.mvt")
        chosen = page.script("return document.getElementById(document.getElementById('list').getAttribute('aria-activedescendant')).textContent")
        assert chosen.startswith(name)
        assert page.count("#list [aria-selected=true]") == 1
    page.press("list", ENTER)
    assert page.script("return document.activeElement.id") == "verdict"


@pytest.mark.parametrize("motion", ["reduce", "no-preference"])
def test_motion(chromium: Chromium, page: Page, motion: str) -> None:
    chromium.tools("Emulation.setEmulatedMedia", features=[{"name": "prefers-reduced-motion", "value": motion}])
    moving = page.script("return [...document.querySelectorAll('*')].filter((it) => getComputedStyle(it).transitionDuration !== '0s').length")
    chromium.tools("Emulation.setEmulatedMedia", features=[])
    assert (moving == 0) == (motion == "reduce")


def test_forced_colours(chromium: Chromium, page: Page) -> None:
    """Where the user's system has its own colours, and no grounds, lines say what is chosen."""
    page.choose(path_of("crossing_edges"), path_of("hole_in_hole"))
    page.script("document.getElementById('fields').open = true")
    page.until("return document.querySelector('#bytes .byte.here')")
    page.click("#features [role=option]")
    chosen = ["#list [aria-selected=true]", "#features [aria-selected=true]", "#fields-tree [aria-selected=true] > .field-line", "#bytes .byte.here"]
    text = "return arguments[0].map((it) => getComputedStyle(document.querySelector(it)).outlineStyle)"
    kinds = "return ['of-key', 'of-length', 'of-content'].map((it) => getComputedStyle(document.querySelector(`#bytes .${it}`)).borderBottomStyle)"
    assert page.script(text, chosen) == ["none"] * 4
    chromium.tools("Emulation.setEmulatedMedia", features=[{"name": "forced-colors", "value": "active"}])
    outlines, borders = page.script(text, chosen), page.script(kinds)
    chromium.tools("Emulation.setEmulatedMedia", features=[])
    assert outlines == ["solid"] * 4
    assert borders == ["dotted", "dashed", "solid"]
