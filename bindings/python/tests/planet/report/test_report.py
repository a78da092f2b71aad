"""The report of a run, in Chromium: what it says, and how it is used."""
from __future__ import annotations

import pathlib
from collections import Counter

import pytest

pytest.importorskip("selenium", reason="Debian's python3-selenium isn't installed")

from access import NAMED_ROLES, PHONE, low_contrasts, roles_and_names, small_targets
from browsers import WIDTH, Chromium
from page import Page
from planet.helpers.reports import FAULTS, NAMES, SOURCE, WORDS, address, chromium, draw_all, figures, opened, quiet, report, rows, samples, write
from planet.helpers.report_samples import MemorySource, Sample, run_of

from mvtgate.planet.report import Report

__all__ = ["address", "chromium", "quiet", "report"]  # (the fixtures)
RIGHT = "\ue014"  # a key, in WebDriver
LONG = "mw" * 4000
HOSTILE = "</script><img src=x onerror=alert(1)>"


def test_figures(report: Page) -> None:
    size = sum(len(it.data) for it in SOURCE.tiles.values())
    assert {
        "tiles": str(len(NAMES)),
        "valid": str(len(NAMES) - len(FAULTS)),
        "faulty": str(len(FAULTS)),
        "unjudged": "0",
        "rate": f"{len(NAMES) / 12.5:.1f}" if len(NAMES) < 125 else f"{len(NAMES) / 12.5:.0f}",
        "workers": "4",
        "seconds": "12.5 s",
        "processor": f"{sum(it.seconds for it in SOURCE.tiles.values()):.1f} s",
        "unpacked": f"{size / 1024:.1f} KiB",
        "packed": f"{size / 1024:.1f} KiB",
        "profile": "polygon",
        "confirmed": str(len(FAULTS)),
        "began": "2026-03-01 12:00 UTC",
        "version": "12.34.56",
    } == figures(report)
    assert report.text("verdict") == f"{len(FAULTS)} of {len(NAMES)} tiles are not valid"


def test_codes_by_their_numbers(report: Page) -> None:
    by_code = Counter(fault["code"] for _, fault, _ in FAULTS)
    wanted = [str(code) for code, _ in sorted(by_code.items(), key=lambda it: (-it[1], it[0]))]
    found = rows(report, ".code-table .of-code")
    assert [it[0] for it in found] == wanted
    assert {int(it[0]): int(it[2]) for it in found} == by_code
    assert report.texts(".code-table .of-code a") == [WORDS["faults"][it]["title"] for it in wanted]
    order = report.script("return [...document.querySelectorAll('.fault-kind')].map((it) => it.id)")
    assert order == [f"code-{it}" for it in wanted]


def test_codes_and_layers(report: Page) -> None:
    wanted = Counter((fault["code"], layer) for _, fault, layer in FAULTS)
    found = report.script("""
        return [...document.querySelectorAll('.layer-table tbody tr')].map((it) =>
            [Number(it.dataset.code), it.dataset.layer ?? null, Number(it.cells[1].textContent)])""")
    assert Counter({(code, layer): tiles for code, layer, tiles in found}) == wanted


def test_words(report: Page) -> None:
    for code in {fault["code"] for _, fault, _ in FAULTS}:
        words = [WORDS["faults"][str(code)][key] for key in ("meaning", "cause", "remedy")]
        said = report.texts(f"#code-{code} .code-parts dd")
        assert [it.lower() for it in said] == [it.replace("`", "").lower() for it in words]
        assert report.texts(f"#code-{code} .code-parts dd code") == [it for text in words for it in text.split("`")[1::2]]


def test_advice(quiet: Chromium, tmp_path: pathlib.Path) -> None:
    source = MemorySource("some", {(4, 3, row): Sample.of("point") for row in range(3)})
    report = Report(run_of(source, advice=True), [source])
    [judged] = source.judged()
    same = [{"kind": "equal_id", "layer": 0, "first": 0, "second": at} for at in (1, 2)]
    judged.advice = [
        {"column": 3, "row": 0, "count": 1, "advice": same[:1]},
        {"column": 3, "row": 1, "count": 9, "advice": same},
        {"column": 3, "row": 2, "count": 1, "advice": [{"kind": "no_layer"}]},
    ]
    report.add(judged)
    report.write(tmp_path / "report.html", 1, 1)
    page = opened(quiet, (tmp_path / "report.html").as_uri())
    found = rows(page, "#advice tbody tr")
    assert [it[:2] for it in found] == [["Two features of one id", "2"], ["Tile without layers", "1"]]
    said = "In layer 0, feature 1 has the same id as feature 0."
    assert found[0][3].splitlines() == [f"4/3/0: {said}", f"4/3/1: {said}"]


def test_slowest(report: Page) -> None:
    slowest = sorted(SOURCE.tiles.items(), key=lambda it: -it[1].seconds)[:10]
    wanted = [["/".join(map(str, place)), f"{it.seconds * 1000:.0f} ms"] for place, it in slowest]
    assert [it[:2] for it in rows(report, "#slowest tbody tr")] == wanted


@pytest.mark.parametrize("name", [HOSTILE, LONG, "<!--<script>", "{{ 7 * 7 }}", "\u202e\x00\ud800"])
def test_hostile_names(quiet: Chromium, tmp_path: pathlib.Path, name: str) -> None:
    """Names of layers are texts, whatever they hold, and don't make the report wide."""
    tiles = {(4, 3, 3): Sample.of("crossing_edges", layer=name), (4, 3, 4): Sample(b"x", error=name)}
    page = opened(quiet, write(tmp_path, MemorySource(f"/{name}", tiles)))
    quiet.use_width(PHONE)
    wide, seen = page.script("return [document.documentElement.scrollWidth, document.documentElement.clientWidth]")
    quiet.use_width(WIDTH)
    assert wide == seen
    assert page.count("img, script:not([type]):not(:last-of-type)") == 0
    if name in (HOSTILE, "<!--<script>", "{{ 7 * 7 }}"):
        assert page.texts(".layer-table .layer") == [name]
        assert page.text("verdict") == "1 of 2 tiles is not valid"
    else:
        [said] = page.texts(".layer-table .layer")
        assert said[:3] == name[:3].replace("\x00", "\ufffd").replace("\ud800", "\ufffd") and len(said) < 200
    draw_all(page)


def test_no_tiles(quiet: Chromium, tmp_path: pathlib.Path) -> None:
    address = write(tmp_path, MemorySource("none", {}))
    page = opened(quiet, address)
    assert page.text("verdict") == "There are no tiles"
    assert figures(page)["tiles"] == "0" and figures(page)["rate"] == "0.0"
    assert page.count("details.found, #map-view") == 0


def test_no_faults(quiet: Chromium, tmp_path: pathlib.Path) -> None:
    page = opened(quiet, write(tmp_path, MemorySource("good", {(0, 0, 0): Sample.of("point"), (1, 0, 0): Sample.of("line")})))
    assert page.text("verdict") == "All 2 tiles are valid"
    assert page.script("return document.querySelector('.banner').dataset.state") == "valid"
    assert page.count("details.found, .code-table") == 0
    page.press("map-view", "n")
    assert page.text("map-cell") == "No cell of zoom 1 has a fault."


def test_faults_that_are_not_confirmed(quiet: Chromium, tmp_path: pathlib.Path) -> None:
    tiles = {(4, 3, at): Sample.of("key_twice", confirmed=it) for at, it in enumerate((True, False, None))}
    page = opened(quiet, write(tmp_path, MemorySource("some", tiles)))
    assert figures(page)["confirmed"] == "1, 1 not confirmed, 1 not asked"
    assert "please report it" in page.script("return document.querySelector('.banner').innerText")
    assert [it[5] for it in rows(page, ".tile-table tbody tr")] == ["yes", "no", "not asked"]


def test_browser_that_cannot_unpack(quiet: Chromium, address: str) -> None:
    """It says so, and has all that is written."""
    added = quiet.tools("Page.addScriptToEvaluateOnNewDocument", source="delete window.DecompressionStream")
    quiet.open(address)
    page = Page(quiet)
    reason = "The map can't be drawn: this browser can't unpack gzip files."
    page.until("return document.getElementById('map-cell').textContent === arguments[0]", reason)
    page.script("document.querySelector('#tile-501-0').scrollIntoView()")
    page.until("return document.querySelector('#tile-501-0 svg')")  # (its tile isn't packed)
    assert figures(page)["faulty"] == str(len(FAULTS))
    quiet.tools("Page.removeScriptToEvaluateOnNewDocument", identifier=added["identifier"])


@pytest.fixture
def drawn(quiet: Chromium, address: str) -> Page:
    """The report with all its pictures, which is opened anew where a test has left it."""
    page = Page(quiet)
    if not page.script("return window.isDrawn"):
        page = opened(quiet, address)
        draw_all(page)
        page.script("window.isDrawn = true")
    return page


@pytest.mark.parametrize("scheme", ["light", "dark"])
def test_contrast(quiet: Chromium, drawn: Page, scheme: str) -> None:
    quiet.use_scheme(scheme)
    drawn.press("map-view", RIGHT)
    low, count = low_contrasts(drawn)
    ground = drawn.script("return getComputedStyle(document.body).backgroundColor")
    quiet.use_scheme("light")
    assert low == [] and count > 500
    assert (ground == "rgb(18, 22, 27)") == (scheme == "dark")


def test_phone(quiet: Chromium, drawn: Page) -> None:
    quiet.use_width(PHONE)
    wide, seen = drawn.script("return [document.documentElement.scrollWidth, document.documentElement.clientWidth]")
    small = small_targets(drawn)
    quiet.use_width(WIDTH)
    assert wide == seen <= PHONE
    assert small == []


def test_names_and_headings(quiet: Chromium, drawn: Page) -> None:
    found = roles_and_names(quiet)
    assert [role for role, name in found if role in NAMED_ROLES and not name] == []
    levels = drawn.script("return [...document.querySelectorAll('h1, h2, h3, h4, h5')].map((it) => Number(it.tagName[1]))")
    assert levels[0] == 1 and levels.count(1) == 1
    assert all(after <= before + 1 for before, after in zip(levels, levels[1:]))
    groups = [name for role, name in found if role == "group" and name.startswith("Picture of")]
    assert len(groups) == len(set(groups)) == drawn.count("details.found")


def test_same_run_same_file(tmp_path: pathlib.Path) -> None:
    first, second = tmp_path / "first", tmp_path / "second"
    for it in (first, second):
        it.mkdir()
        write(it, samples())
    assert (first / "report.html").read_bytes() == (second / "report.html").read_bytes()
    assert [it.name for it in first.iterdir()] == ["report.html"]
