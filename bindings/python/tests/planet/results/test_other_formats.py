"""Tiles that are no tiles, but files of another format: what a run says of them beside their fault."""
from __future__ import annotations

import gzip
import json
import pathlib
import zlib

import pytest

pytest.importorskip("selenium", reason="Debian's python3-selenium isn't installed")

from browsers import Chromium
from page import Page
from planet.helpers.planets import names_by_reader
from planet.helpers.reports import WORDS, chromium, draw_all, opened, quiet, rows
from planet.helpers.runs import FAULTY, SAMPLE, VALID, Tile, records, run, write_database

__all__ = ["chromium", "quiet"]  # (the fixtures)

PNG = b"\x89PNG\r\n\x1a\n\x00\x00\x00\rIHDR"
# (columns 0 to 6; what is unpacked is judged)
STORED = [VALID, PNG, gzip.compress(gzip.compress(VALID)), b'\n{"type":"FeatureCollection"}', gzip.compress(PNG), zlib.compress(zlib.compress(VALID))]
FORMATS = {1: "png", 2: "gzip", 3: "json", 4: "png", 5: "zlib"}
CUT, CROSSING = SAMPLE["truncated"].tile, SAMPLE["crossing_edges"].tile


@pytest.fixture(scope="module")
def output(tmp_path_factory: pytest.TempPathFactory, scheduler: str) -> pathlib.Path:
    folder = tmp_path_factory.mktemp("formats")
    stored = [*STORED, CUT, CROSSING]
    path = write_database(folder / "tiles.mbtiles", [Tile(3, column, 1, it) for column, it in enumerate(stored)])
    it = run(folder / "out", path, "--scheduler", scheduler)
    assert it.process.returncode == FAULTY, it.stderr
    return it.output


def test_lines(output: pathlib.Path) -> None:
    """A further key where a format is known; a tile that is cut, and one with another fault, has none."""
    lines = {line["column"]: line for line in records(output / "faults.jsonl")}
    assert list(lines) == [*FORMATS, 6, 7]
    assert {column: line["format"] for column, line in lines.items() if "format" in line} == FORMATS
    assert all(101 <= lines[column]["fault"]["code"] <= 111 and lines[column]["confirmed"] for column in FORMATS)
    crossing = json.dumps(lines[7]["fault"])
    assert (lines[7]["layer"], lines[7]["feature_id"]) == names_by_reader(CROSSING, crossing)


def test_report(quiet: Chromium, output: pathlib.Path) -> None:
    page = opened(quiet, (output / "report.html").as_uri())
    words = WORDS["formats"]
    found = {row[0]: row for row in rows(page, "#formats tbody tr")}
    assert {title: row[1] for title, row in found.items()} == {
        words[name]["title"]: str(sum(it == name for it in FORMATS.values())) for name in set(FORMATS.values())
    }
    said = found[words["png"]["title"]]
    assert said[2].lower() == f"{words['png']['sentence']} What to do: {words['png']['remedy']}".replace("`", "").lower()
    assert said[3].split() == ["3/1/1", "3/4/1"]
    assert "PNG picture" in facts(page, "3/1/1") and "Begins as" not in facts(page, "3/7/1")


def facts(page: Page, tile: str) -> str:
    """What stands beside a tile's picture."""
    draw_all(page)
    said: str = page.script("return document.querySelector(`details[data-tile='${arguments[0]}'] .facts`).innerText", tile)
    return said


def test_no_section_without_them(quiet: Chromium, tmp_path: pathlib.Path, scheduler: str) -> None:
    path = write_database(tmp_path / "tiles.mbtiles", [Tile(3, 1, 1, CUT)])
    it = run(tmp_path / "out", path, "--scheduler", scheduler)
    page = opened(quiet, (it.output / "report.html").as_uri())
    assert page.count("#formats, a[href='#formats']") == 0
