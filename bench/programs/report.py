"""How long the report of a planet run takes to open: report.py [--tiles N] [--rounds N]. bench/report runs it, and bench/README.md says
what is measured and how."""
from __future__ import annotations

import argparse
import pathlib
import statistics
import sys
import tempfile
import time
from typing import Callable, Dict, List, Tuple

TOP = pathlib.Path(__file__).resolve().parents[2]
# (before this folder, which has a page.py and a planet.py too)
sys.path[:0] = [str(TOP / it) for it in ("web/tests/browser", "bindings/python/tests", "bindings/python/src")]

from browsers import Browser, Chromium, Firefox
from page import Page
from planet.helpers.report_samples import TILES, MemorySource, Sample, run_of

from mvtgate.planet.further import OneFault
from mvtgate.planet.records import Place
from mvtgate.planet.report import Report

MIB = 1 << 20
ZOOM, SIDE = 14, 500
LAYERS = ("water", "landuse", "building", "transportation", "poi")
BROWSERS: Dict[str, Callable[[pathlib.Path], Browser]] = {"Chromium": Chromium, "Firefox": Firefox}
MAP, LIST = "return document.getElementById('map-scale').textContent !== ''", "return document.getElementById('tiles').dataset.state === 'ready'"
SEARCH = "const it = document.getElementById('tiles-search'); it.value = arguments[0]; it.dispatchEvent(new Event('input'))"
COUNT = "return document.getElementById('tiles-count').textContent === arguments[0]"


def planet(count: int) -> MemorySource:
    """So many tiles, each with one of the faults of the samples, and as many that are valid."""
    samples = [Sample.of(it.stem) for it in sorted((TILES / "expected").glob("*.check"))]
    wrong, valid = [it for it in samples if it.fault is not None], Sample.of("point")
    tiles = {}
    for at in range(count):
        it = wrong[at % len(wrong)]
        column, row = at // SIDE, at % SIDE
        tiles[ZOOM, column, 2 * row] = Sample(it.data, it.fault, LAYERS[at % len(LAYERS)], feature_id=at)
        tiles[ZOOM, column, 2 * row + 1] = valid
    return MemorySource("/data/planet.mbtiles", tiles)


def write(path: pathlib.Path, count: int) -> Tuple[int, float]:
    """Writes the report of a run over them. Its size, and how many seconds that took."""
    source, began = planet(count), time.monotonic()
    report = Report(run_of(source), [source])
    for judged in source.judged():
        report.add(judged)
        for it in judged.faults:
            assert it.fault is not None
            report.add_fault(Place(0, ZOOM, it.column, it.row), OneFault(it.fault, it.layer, it.feature_id))
    report.write(path, seconds=100.0, workers=4)
    return path.stat().st_size, time.monotonic() - began


def opened(browser: Browser, address: str, count: int) -> Tuple[float, float, float]:
    """Seconds from the call that opens the report until the map is drawn, and until all faults are listed; and those of a search."""
    began = time.monotonic()
    browser.open(address)
    page = Page(browser)
    page.until(MAP)
    drawn = time.monotonic() - began
    page.until(LIST)
    listed = time.monotonic() - began
    began = time.monotonic()
    page.script(SEARCH, str(count - 1))
    page.until(COUNT, "1 fault in 1 tile")
    return drawn, listed, time.monotonic() - began


def main() -> None:
    reader = argparse.ArgumentParser()
    reader.add_argument("--tiles", type=int, default=100_000)
    reader.add_argument("--rounds", type=int, default=5)
    said = reader.parse_args()
    with tempfile.TemporaryDirectory(prefix="mvtgate-report-") as folder:
        path = pathlib.Path(folder, "report.html")
        size, seconds = write(path, said.tiles)
        print(f"{said.tiles:,} faulty tiles of {2 * said.tiles:,}: a report of {size / MIB:.1f} MiB, written in {seconds:.1f} s\n")
        print("| Browser | map, s | list of all, s | a search, s |")
        print("|---|---|---|---|")
        for name, browser_of in BROWSERS.items():
            browser = browser_of(pathlib.Path(folder))
            rounds: List[Tuple[float, float, float]] = [opened(browser, path.as_uri(), said.tiles) for _ in range(said.rounds)]
            browser.quit()
            cells = " | ".join(f"{statistics.median(it):.1f} ({max(it):.1f})" for it in zip(*rounds))
            print(f"| {name} | {cells} |", flush=True)


if __name__ == "__main__":
    main()
