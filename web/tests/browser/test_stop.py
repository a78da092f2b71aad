"""A check that takes long can be stopped; memory that is refused is a sentence, and so is a browser that can't run the gate."""
from __future__ import annotations

import http.server
import pathlib
import subprocess
import sys
import threading
from typing import Any, Iterator

import pytest

from browsers import Browser, Chromium
from conftest import FILE_ADDRESS, OUT, TOP, opened
from page import Page
from samples import accepted, path_of
from wire import tile_of_size


QUICK = 15.0  # seconds, a fourth of what the slow tile takes


@pytest.fixture(scope="module")
def slow_tile(tmp_path_factory: pytest.TempPathFactory) -> pathlib.Path:
    """A ring of 33 million vertices, whose check takes a minute."""
    folder = tmp_path_factory.mktemp("slow")
    subprocess.run([sys.executable, TOP / "bench/makers/shapes.py", folder, "zigzag_64_mib"], check=True)
    return folder / "zigzag_64_mib"


def test_stop(browser: Browser, slow_tile: pathlib.Path) -> None:
    page = opened(browser, FILE_ADDRESS)
    page.begin(path_of("crossing_edges"), slow_tile, path_of("point"))
    page.until("return document.querySelector('#list [data-state=fault] + [data-state=checking]')")
    page.until("return parseInt(document.getElementById('elapsed').textContent) >= 2")
    assert [it.state for it in page.lines()] == ["fault", "checking", "waiting"]
    assert page.is_visible("stop") and page.text("status") == "Checking 3 files .."
    page.click("#stop")
    assert [it.state for it in page.lines()] == ["fault", "stopped", "stopped"]
    assert not page.is_visible("stop")
    check_after_stop(page)


def check_after_stop(page: Page) -> None:
    """The check that was stopped doesn't keep the next one waiting."""
    page.click("#list [role=option]:last-child")
    assert page.verdict == "Stopped"
    page.click("#again")
    page.until_shown("point.mvt", seconds=QUICK)
    assert page.verdict == "Valid"
    page.choose(path_of("hole_in_hole"))
    assert page.fault in accepted("hole_in_hole", "polygon")


def test_another_profile_stops_a_check(page: Page, slow_tile: pathlib.Path) -> None:
    page.choose(path_of("polygons_that_overlap"))
    page.begin(slow_tile)
    page.until("return document.querySelector('#list [data-state=checking]')")
    page.use_profile("feature")
    page.until("return document.querySelector('#list [data-state=fault]')", seconds=QUICK)
    page.click("#stop")
    assert [it.state for it in page.lines()] == ["fault", "stopped"]


@pytest.fixture
def limited_chromium(request: pytest.FixtureRequest, tmp_path: pathlib.Path) -> Iterator[Chromium]:
    """A browser of which this flag of its engine takes something away."""
    browser = Chromium(tmp_path, f"--js-flags={request.param}")
    yield browser
    browser.quit()


# (its modules get 16 MiB of memory at most)
@pytest.mark.parametrize("limited_chromium", ["--wasm-max-mem-pages=256"], indirect=True)
def test_memory_refused(limited_chromium: Chromium, tmp_path: pathlib.Path) -> None:
    large = tmp_path / "large.mvt"
    large.write_bytes(tile_of_size(20 << 20))
    page = opened(limited_chromium, FILE_ADDRESS)
    page.choose(large)
    assert page.verdict == "Couldn't be read"
    assert page.text("sentence") == "The browser refused the memory that the check needs."
    page.choose(path_of("crossing_edges"))
    page.click("#list [role=option]:last-child")
    page.until_shown("crossing_edges.mvt")
    assert page.fault in accepted("crossing_edges", "polygon")
    assert limited_chromium.complaints() == []


class WithPolicy(http.server.BaseHTTPRequestHandler):
    """The page from a server that refuses scripts within pages."""

    def do_GET(self) -> None:
        self.send_response(200)
        for name, value in (("Content-Type", "text/html"), ("Content-Security-Policy", "script-src 'self'")):
            self.send_header(name, value)
        self.end_headers()
        self.wfile.write((OUT / "index.html").read_bytes())

    def log_message(self, *_: Any) -> None:
        pass


def test_script_that_is_refused(browser: Browser) -> None:
    """The page says after a while that its script doesn't run. Where it does, nothing is said of that."""
    page = opened(browser, FILE_ADDRESS)
    assert not page.is_visible("idle")
    with http.server.ThreadingHTTPServer(("127.0.0.1", 0), WithPolicy) as server:
        threading.Thread(target=server.serve_forever, daemon=True).start()
        browser.open(f"http://127.0.0.1:{server.server_port}/")
        page.until("return getComputedStyle(document.getElementById('idle')).visibility === 'visible'", seconds=20)
        assert page.is_visible("idle") and page.script("return document.body.dataset.state") == "loading"
        server.shutdown()
    browser.complaints()


# (it knows no WebAssembly)
@pytest.mark.parametrize("limited_chromium", ["--jitless"], indirect=True)
def test_browser_without_modules(limited_chromium: Chromium) -> None:
    page = opened(limited_chromium, FILE_ADDRESS)
    assert page.text("status") == "The gate can't run in this browser (WebAssembly is not defined)."
    assert page.is_visible("status")
