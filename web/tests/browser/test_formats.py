"""What isn't a tile at all: what its bytes begin as is said beside the fault, and what to do."""
from __future__ import annotations

import gzip
import json
import pathlib
import sqlite3
from typing import Dict

import pytest

from page import Page
from samples import WORDS, path_of

POINT = path_of("point").read_bytes()


def database(folder: pathlib.Path) -> bytes:
    """An MBTiles file of one tile."""
    path = folder / "town.mbtiles"
    with sqlite3.connect(path) as connection:
        connection.execute("CREATE TABLE tiles (zoom_level, tile_column, tile_row, tile_data)")
        connection.execute("INSERT INTO tiles VALUES (0, 0, 0, ?)", (POINT,))
    connection.close()
    return path.read_bytes()


def contents(folder: pathlib.Path) -> Dict[str, bytes]:
    """Bytes of each format as who has them hands them to the page, which unpacks gzip and zlib once."""
    return {
        "gzip": gzip.compress(gzip.compress(POINT)),
        "zstd": bytes.fromhex("28b52ffd0458") + bytes(20),  # (RFC 8878, 3.1.1)
        "sqlite": database(folder),
        "pmtiles": b"PMTiles\x03" + bytes(119),
        "png": bytes.fromhex("89504e470d0a1a0a0000000d49484452"),
        "json": b'\n  {"type": "FeatureCollection", "features": []}',
    }


@pytest.mark.parametrize("name", ["gzip", "zstd", "sqlite", "pmtiles", "png", "json"])
def test_named(page_in_each: Page, tmp_path: pathlib.Path, name: str) -> None:
    page = page_in_each
    path = tmp_path / "14_8802_5373.mvt"
    path.write_bytes(contents(tmp_path)[name])
    page.choose(path)
    words = WORDS["formats"][name]
    fault = json.loads(page.fault)
    title = WORDS["faults"][str(fault["code"])]["title"]
    assert 101 <= fault["code"] <= 111
    assert page.verdict == f"Not valid: {title[0].lower()}{title[1:]}"
    assert page.text("format") == f"{words['sentence']} What to do: {words['remedy']}".replace("`", "")
    assert page.is_visible("format")
    assert page.script("return document.title").startswith(f"{path.name}: {fault['code']}: {title} ({words['title']})")


def test_not_named(page: Page, tmp_path: pathlib.Path) -> None:
    """A tile that was cut is of no other format, nor is one whose fault isn't one of bytes, or that is valid."""
    (tmp_path / "picture.mvt").write_bytes(contents(tmp_path)["png"])
    page.choose(tmp_path / "picture.mvt", *map(path_of, ("truncated", "crossing_edges", "point")))
    assert page.is_visible("format")
    for at in (2, 3, 4):
        page.click(f"#list [role=option]:nth-child({at})")
        page.until_done()
        assert page.text("format") == "" and not page.is_visible("format")
    assert [" (" in it.verdict for it in page.lines()] == [True, False, False, False]
