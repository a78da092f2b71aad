"""What the tests share."""
from __future__ import annotations

import contextlib
import gzip
import pathlib
import threading
from typing import Iterator

import pytest

from running import TILES, nginx, nginx_of, sample, wait_until

VALID, FAULTY, CUT = sample("polygon"), sample("crossing_edges"), sample("cut_geometry")
NAMES = sorted(it.stem for it in (TILES / "expected").glob("*.check"))


def path_of(name: str) -> str:
    """The address of a sample tile: the zoom is 7."""
    return f"/7/0/{NAMES.index(name)}.mvt"


def nginx_with_samples(more: str = "") -> "contextlib.AbstractContextManager[str]":
    """nginx with the sample tiles, as files 7/0/NUMBER.mvt and, packed, below /packed; with a page, and with more locations, in which
    PLAIN is the folder of the tiles."""

    def configuration(folder: pathlib.Path, port: int) -> str:
        for top in ("plain/7/0", "plain/page", "packed/7/0"):
            (folder / top).mkdir(parents=True, exist_ok=True)
        for number, name in enumerate(NAMES):
            tile = sample(name)
            (folder / f"plain/7/0/{number}.mvt").write_bytes(tile)
            (folder / f"packed/7/0/{number}.mvt.gz").write_bytes(gzip.compress(tile, mtime=0))
        (folder / "plain/page/index.html").write_text("<html>" + "a page " * 10000)
        server = f"""types {{ application/vnd.mapbox-vector-tile mvt; text/html html; }}
        server {{ listen 127.0.0.1:{port}; keepalive_requests 1000000; root {folder}/plain;
            location /packed/ {{ alias {folder}/packed/; gzip_static always; gunzip on; }}
            {more.replace("PLAIN", f"{folder}/plain/7/0")} }}"""
        return nginx_of(server, folder)

    return nginx(configuration)


@pytest.fixture(autouse=True)
def no_thread_is_left() -> Iterator[None]:
    """Each server of a test ends with it: what goes on would take the processor from those after it."""
    before = threading.active_count()
    yield
    wait_until(lambda: threading.active_count() <= before)


@pytest.fixture(scope="session")
def files() -> Iterator[str]:
    """nginx with the sample tiles; its URL."""
    with nginx_with_samples() as url:
        yield url
