"""Reports for tests, opened in Chromium."""
from __future__ import annotations

import json
import pathlib
import shutil
from typing import Any, Dict, Iterator, List, Optional

import pytest

for program in ("/usr/bin/chromium", "/usr/bin/chromedriver"):
    if not pathlib.Path(program).exists():
        pytest.skip(f"there is no {program}", allow_module_level=True)

from browsers import Chromium
from page import Page
from planet.helpers.report_samples import TILES, TOP, MemorySource, Sample, fault_of, run_of

from mvtgate.planet.report import Report, ReportPartsMissing
from mvtgate.planet.report.parts import part

try:
    part("report.js")
except ReportPartsMissing as missing:
    pytest.skip(str(missing), allow_module_level=True)

BUILT_PAGE = TOP / "web/out/index.html"
WORDS: Dict[str, Any] = json.loads((TOP / "bindings/faults.json").read_text())
NAMES = sorted(it.stem for it in (TILES / "expected").glob("*.check"))
LAYERS = ("water", "roads", "")


def layer_of(at: int, fault: Optional[Dict[str, Any]]) -> Optional[str]:
    """A name for the layer of each sample; wire faults get none."""
    return None if fault is None or fault["code"] < 200 else LAYERS[at % len(LAYERS)]


def samples() -> MemorySource:
    """All sample tiles at zoom 7, from column 20 and row 30 on, ten in a row of the map."""
    tiles = {}
    for at, name in enumerate(NAMES):
        fault = fault_of(name)
        tiles[7, 20 + at % 10, 30 + at // 10] = Sample.of(name, layer=layer_of(at, fault), feature_id=at, seconds=0.001 * (at + 1))
    return MemorySource("/data/samples.mbtiles", tiles)


SOURCE = samples()
FAULTS = [(place, it.fault, it.layer) for place, it in sorted(SOURCE.tiles.items()) if it.fault is not None]


def write(folder: pathlib.Path, *sources: MemorySource, profile: str = "polygon", page: Optional[str] = "page.html") -> str:
    """Writes the report of a run over these sources, and returns its address."""
    report = Report(run_of(*sources, profile=profile), sources)
    for number, source in enumerate(sources):
        for judged in source.judged(number):
            report.add(judged)
    report.write(folder / "report.html", seconds=12.5, workers=4, page=page)
    return (folder / "report.html").as_uri()


@pytest.fixture(scope="module")
def chromium(tmp_path_factory: pytest.TempPathFactory) -> Iterator[Chromium]:
    browser = Chromium(tmp_path_factory.mktemp("chromium"))
    browser.use_scheme("light")
    yield browser
    browser.quit()


@pytest.fixture(scope="module")
def address(tmp_path_factory: pytest.TempPathFactory) -> str:
    """The report over all sample tiles, with the built page beside it where there is one."""
    folder = tmp_path_factory.mktemp("samples")
    if BUILT_PAGE.exists():
        shutil.copy(BUILT_PAGE, folder / "page.html")
    return write(folder, SOURCE)


@pytest.fixture
def quiet(chromium: Chromium) -> Iterator[Chromium]:
    """The browser. No page may complain while the test runs, and none may ask the network for anything."""
    chromium.complaints()
    chromium.requests()
    yield chromium
    assert chromium.complaints() == []
    assert [it for it in chromium.requests() if not it.startswith(("file:", "data:", "blob:", "about:"))] == []


def opened(chromium: Chromium, address: str) -> Page:
    chromium.open(address)
    page = Page(chromium)
    if page.count("#map-view"):
        page.until("return document.getElementById('map-scale').textContent !== ''")
    return page


@pytest.fixture
def report(quiet: Chromium, address: str) -> Page:
    return opened(quiet, address)


def figures(page: Page) -> Dict[str, str]:
    """The figures of the run, by their names."""
    texts = page.script("""
        return [...document.querySelectorAll('[data-figure], [data-measure]')].map((it) =>
            [it.dataset.figure ?? it.dataset.measure, (it.querySelector('.figure') ?? it.querySelector('dd')).textContent])""")
    return {name: text for name, text in texts}


def rows(page: Page, selector: str) -> List[List[str]]:
    """The texts of the cells of the rows that a selector finds."""
    text = "return [...document.querySelectorAll(arguments[0])].map((row) => [...row.cells].map((it) => it.innerText.trim()))"
    found: List[List[str]] = page.script(text, selector)
    return found


DRAW_ALL = """
return (async () => {
    const all = [...document.querySelectorAll('details.found')];
    for (const it of all) it.open = true;
    for (const it of all) {
        it.scrollIntoView();
        while (it.querySelector('.buttons').childElementCount === 0) await new Promise((drawn) => setTimeout(drawn, 5));
    }
    return all.map((it) => it.id);
})()"""


def draw_all(page: Page) -> List[str]:
    """Opens all pictures, and waits until each is drawn."""
    names: List[str] = page.script(DRAW_ALL)
    return names
