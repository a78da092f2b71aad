"""The browsers, and where the page is: in the folder that MVTGATE_PAGE names, or where tools/page builds it."""
from __future__ import annotations

import functools
import http.server
import os
import pathlib
import threading
from typing import Any, Iterator, List

import pytest

from browsers import Browser, Chromium, Firefox
from page import Page

TOP = pathlib.Path(__file__).resolve().parents[3]
OUT = pathlib.Path(os.environ.get("MVTGATE_PAGE", TOP / "web/out"))
FILE_ADDRESS = (OUT / "index.html").as_uri()


@pytest.fixture(scope="session")
def http_address() -> Iterator[str]:
    """The page on a static host."""

    class Quiet(http.server.SimpleHTTPRequestHandler):
        def log_message(self, *_: Any) -> None:
            pass

    with http.server.ThreadingHTTPServer(("127.0.0.1", 0), functools.partial(Quiet, directory=str(OUT))) as server:
        threading.Thread(target=server.serve_forever, daemon=True).start()
        yield f"http://127.0.0.1:{server.server_port}/index.html"
        server.shutdown()


@pytest.fixture(scope="session")
def chromium(tmp_path_factory: pytest.TempPathFactory) -> Iterator[Chromium]:
    browser = Chromium(tmp_path_factory.mktemp("chromium"))
    yield browser
    browser.quit()


@pytest.fixture(scope="session")
def firefox(tmp_path_factory: pytest.TempPathFactory) -> Iterator[Firefox]:
    browser = Firefox(tmp_path_factory.mktemp("firefox"))
    yield browser
    browser.quit()


@pytest.fixture(params=["chromium", "firefox"])
def browser(request: pytest.FixtureRequest) -> Any:
    return request.getfixturevalue(request.param)


@pytest.fixture
def page(chromium: Chromium) -> Iterator[Page]:
    """The page in Chromium, newly opened as a file. It may not have complained when the test ends."""
    yield from uncomplaining(chromium)


@pytest.fixture
def page_in_each(browser: Browser) -> Iterator[Page]:
    """The same in Chromium and in Firefox."""
    yield from uncomplaining(browser)


def uncomplaining(browser: Browser) -> Iterator[Page]:
    browser.complaints()
    yield opened(browser, FILE_ADDRESS)
    assert browser.complaints() == []


def opened(browser: Browser, address: str) -> Page:
    browser.open(address)
    page = Page(browser)
    page.until("return document.body.dataset.state !== 'loading'")
    return page


@pytest.fixture
def middle_of_drop(page: Page) -> List[float]:
    """The middle of the place for drops."""
    return page.middle(".drop")
