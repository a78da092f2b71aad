"""mvtgate-planet --since, and the words by which a run is about a part of a source, or ends with another status."""
from __future__ import annotations

import gzip
import json
import math
import pathlib
import re
import shutil
import sqlite3
import xml.etree.ElementTree as ElementTree
from typing import Any, Callable, Dict, List, Optional, Set, Tuple

import pytest

import mvtgate
from mvtgate.planet.sums import Sums, sum_of, sums_in
from mvtgate.planet.window import Ranges, Window, box_of, zooms_of
from planet.helpers.forms import write_folder
from planet.helpers.made import MADE
from planet.helpers.planets import Planet, full_zoom
from planet.helpers.runs import FAULTY, REFUSED, SAMPLE, UNJUDGED, VALID, VALID_STATUS, Run, Tile, faults_text, journal, records, run, write_database

Line = Dict[str, Any]
FAULT, NO_KEY = SAMPLE["crossing_edges"].tile, SAMPLE["no_such_key"].tile


def changed(path: pathlib.Path, *statements: Tuple[str, Tuple[Any, ...]]) -> None:
    database = sqlite3.connect(path)
    for statement, words in statements:
        assert database.execute(statement, words).rowcount == 1
    database.commit()
    database.close()


AT = "WHERE zoom_level = ? AND tile_column = ? AND tile_row = ?"


@pytest.fixture(scope="module")
def earlier(tmp_path_factory: pytest.TempPathFactory, scheduler: str) -> Tuple[Planet, Run]:
    """A planet of 256 tiles, and a run of it."""
    folder = tmp_path_factory.mktemp("earlier")
    planet = full_zoom(folder / "planet.mbtiles", 4)
    return planet, run(folder / "out", planet.path, "--scheduler", scheduler, "--partition", 50)


def places(lines: List[Line], what: str) -> Set[str]:
    return {line["tile"] for line in lines if line["what"] == what}


def summary(it: Run) -> Dict[str, Any]:
    found: Dict[str, Any] = json.loads((it.output / "summary.json").read_text())
    return found


def reused(it: Run) -> int:
    return sum(line["reused"] for line in journal(it.output))


def test_nothing_changed(earlier: Tuple[Planet, Run], tmp_path: pathlib.Path, scheduler: str) -> None:
    """No tile is judged, and the same is found: by partitions of another size, of a copy at another path."""
    planet, before = earlier
    path = tmp_path / "planet.mbtiles"
    shutil.copy(planet.path, path)
    it = run(tmp_path / "out", path, "--since", before.output, "--scheduler", scheduler, "--partition", 16)
    assert it.process.returncode == FAULTY and reused(it) == 256, it.stderr
    assert faults_text(it.output) == planet.text.replace(str(planet.path), str(path))
    assert summary(it)["since"] == {"run": str(before.output), "judged": 0, "new": 0, "still": len(planet.lines), "mended": 0, "gone": 0, "unjudged": 0}
    # (and from this one a further one may begin)
    again = run(tmp_path / "again", path, "--since", it.output, "--scheduler", scheduler)
    assert reused(again) == 256 and faults_text(again.output) == faults_text(it.output)


def test_some_tiles_changed(earlier: Tuple[Planet, Run], tmp_path: pathlib.Path, scheduler: str) -> None:
    """A tile that is faulty now, one that is valid now, one whose fault is another, one that is gone, one that has come."""
    planet, before = earlier
    path = tmp_path / "planet.mbtiles"
    shutil.copy(planet.path, path)
    faulty = sorted(planet.lines)
    south = [(zoom, column, 15 - row) for zoom, column, row in faulty]
    changed(
        path,
        (f"UPDATE tiles SET tile_data = ? {AT}", (FAULT, 4, 0, 15)),
        (f"UPDATE tiles SET tile_data = ? {AT}", (VALID, *south[0])),
        (f"UPDATE tiles SET tile_data = ? {AT}", (NO_KEY, *south[1])),
        (f"DELETE FROM tiles {AT}", south[2]),
        ("INSERT INTO tiles VALUES (?, ?, ?, ?)", (5, 3, 3, FAULT)),
    )
    it = run(tmp_path / "out", path, "--since", before.output, "--scheduler", scheduler, "--partition", 64)
    lines = records(it.output / "since.jsonl")
    name = ["/".join(map(str, place)) for place in faulty]
    assert places(lines, "new") == {"4/0/0", "5/3/28"} and places(lines, "mended") == {name[0]} and places(lines, "gone") == {name[2]}
    assert places(lines, "still") == set(name) - {name[0], name[2]} and len(lines) == len(planet.lines) + 2
    assert reused(it) == 256 - 4
    # (what is found is what a run finds that knows of no other)
    assert faults_text(it.output) == faults_text(run(tmp_path / "alone", path, "--scheduler", scheduler).output)
    html = (it.output / "report.html").read_text()
    [section] = re.findall(r'<section class="block" id="since".*?</section>', html, re.DOTALL)
    told = re.findall(r'<tr data-since="(\w+)">.*?<td class="number">([^<]*)<', section)
    assert dict(told) == {"new": "2", "still": str(len(planet.lines) - 2), "mended": "1", "gone": "1", "unjudged": "0"} and "4 tiles were judged" in section


def test_folder_since_a_folder(tmp_path: pathlib.Path, scheduler: str) -> None:
    tiles = [Tile(3, column, row, FAULT if (column + row) % 3 == 0 else VALID) for column in range(4) for row in range(4)]
    write_folder(tmp_path / "tiles", tiles)
    first = run(tmp_path / "first", tmp_path / "tiles", "--advice", "--scheduler", scheduler)
    [changed_file] = (it for it in (tmp_path / "tiles/3/0").glob("0.*") if it.suffix != ".part")
    changed_file.write_bytes(VALID)
    second = run(tmp_path / "second", tmp_path / "tiles", "--advice", "--since", first.output, "--scheduler", scheduler)
    assert reused(second) == 15 and places(records(second.output / "since.jsonl"), "mended") == {"3/0/0"}
    assert len(records(second.output / "faults.jsonl")) == len(records(first.output / "faults.jsonl")) - 1
    assert (second.output / "advice.jsonl").read_text() == (first.output / "advice.jsonl").read_text()


def test_since_and_mend(earlier: Tuple[Planet, Run], tmp_path: pathlib.Path, scheduler: str) -> None:
    """Tiles with a fault are judged again, so that they are mended."""
    planet, before = earlier
    it = run(tmp_path / "out", planet.path, "--since", before.output, "--mend", tmp_path / "made.mbtiles", "--scheduler", scheduler)
    assert reused(it) == 256 - len(planet.lines) and (tmp_path / "made.mbtiles").exists()
    assert summary(it)["mended"]["tiles"] > 0 and summary(it)["mended"]["tiles"] + summary(it)["mended"]["staying"] == len(planet.lines)


def test_since_a_run_that_mended(tmp_path: pathlib.Path) -> None:
    """What that run mended is in its copy, and not in the file that is judged again."""
    path = write_database(tmp_path / "planet.mbtiles", [Tile(1, 0, 0, VALID), Tile(1, 1, 0, FAULT)])
    before = run(tmp_path / "first", path, "--mend", tmp_path / "made.mbtiles")
    assert before.process.returncode == VALID_STATUS and summary(before)["mended"]["tiles"] == 1, before.stderr
    it = run(tmp_path / "second", path, "--since", tmp_path / "first")
    assert it.process.returncode == FAULTY and reused(it) == 2, it.stderr
    [line] = records(it.output / "faults.jsonl")
    assert "mended" not in line and line["fault"]["code"] == 504


def test_tiles_that_cannot_be_judged_any_more(tmp_path: pathlib.Path, scheduler: str, shimmed: Callable[[int], Dict[str, str]]) -> None:
    """Of a tile that had a fault nobody knows whether it is mended: where it is cut, and where it ends its worker."""
    path = tmp_path / "planet.mbtiles"
    write_database(path, [Tile(2, column, 0, FAULT) for column in range(3)] + [Tile(2, 3, 0, VALID)])
    first = run(tmp_path / "first", path, "--scheduler", scheduler)
    statement = f"UPDATE tiles SET tile_data = ? {AT}"
    cut, killer = gzip.compress(FAULT)[:-1], FAULT + b"\xff\xff!!kill"
    changed(path, *((statement, (stored, 2, column, 3)) for column, stored in ((0, cut), (1, killer), (2, VALID), (3, cut))))
    second = run(tmp_path / "second", path, "--since", first.output, "--scheduler", scheduler)
    assert second.process.returncode == UNJUDGED, second.stderr
    told = {(line["tile"], line["what"], line["code"]) for line in records(second.output / "since.jsonl")}
    assert told == {("2/0/0", "unjudged", 504), ("2/1/0", "unjudged", 504), ("2/2/0", "mended", 504)}
    assert {key: summary(second)["since"][key] for key in ("judged", "mended", "unjudged")} == {"judged": 1, "mended": 1, "unjudged": 2}
    html = (second.output / "report.html").read_text()
    assert 'data-since="unjudged"' in html and "1 tile was judged, and 3 couldn't be; the others have the same bytes." in html


@pytest.mark.parametrize("left", [None, b"", b"cut"])
def test_earlier_run_without_its_bytes(earlier: Tuple[Planet, Run], tmp_path: pathlib.Path, left: Optional[bytes]) -> None:
    """Refused: the same words would never get on with it."""
    planet, before = earlier
    shutil.copytree(before.output, tmp_path / "before")
    store = tmp_path / "before/journal.bin"
    store.unlink() if left is None else store.write_bytes(left)
    it = run(tmp_path / "out", planet.path, "--since", tmp_path / "before")
    assert it.process.returncode == REFUSED and len(it.said) == 1 and str(store) in it.said[0], it.stderr


@pytest.mark.parametrize("words", [["--profile", "feature"], ["--all"], ["--advice"], ["--layer", "water"]], ids=" ".join)
def test_other_words(earlier: Tuple[Planet, Run], tmp_path: pathlib.Path, words: List[str]) -> None:
    planet, before = earlier
    it = run(tmp_path / "out", planet.path, "--since", before.output, *words)
    assert it.process.returncode == REFUSED and "can't go by it with other words" in it.said[0], it.stderr


def test_no_earlier_run(earlier: Tuple[Planet, Run], tmp_path: pathlib.Path) -> None:
    planet, _ = earlier
    it = run(tmp_path / "out", planet.path, "--since", tmp_path / "nowhere")
    assert (it.process.returncode, it.said) == (REFUSED, [f"mvtgate-planet: {tmp_path / 'nowhere'}: there is no run in it"])


def test_sums() -> None:
    """Packed and read again, for places in any order; of a place with two tiles there is none."""
    tiles = [(5, 9, b"a"), (5, 8, b"b"), (2**40, -3, b"a"), (5, 9, b"c")]
    sums = Sums()
    for column, row, stored in tiles:
        assert sums.add(column, row, stored) == sum_of(stored)
    other = Sums()
    other.add(0, 0, b"")
    assert sums_in([sums.packed(), other.packed()]) == {(5, 8): sum_of(b"b"), (2**40, -3): sum_of(b"a"), (0, 0): sum_of(b"")}


def row_of(latitude: float) -> float:
    """The row of zoom 5, and how far down in it."""
    angle = math.radians(latitude)
    return (1 - math.log(math.tan(angle) + 1 / math.cos(angle)) / math.pi) / 2 * 32


def test_windows() -> None:
    assert Window().is_all and Window().ranges(5) == Ranges()
    # (Switzerland's box at zoom 5, by the formula of slippy maps)
    west, south, east, north = box = box_of("5.96,45.82,10.49,47.81")
    (first, last), (top, bottom) = (((it + 180) / 360 * 32 for it in (west, east)), map(row_of, (north, south)))
    assert Window(box=box).ranges(5) == Ranges(int(first), int(last), int(top), int(bottom))
    # (the edges of a tile, and of the map)
    assert Window(box=(0.0, 0.0, 11.25, 21.0)).ranges(5) == Ranges(16, 16, 14, 15)
    assert Window(box=(-180.0, -90.0, 180.0, 90.0)).ranges(3) == Ranges(0, 7, 0, 7)
    assert Ranges(0, 7, 1, 2).southern_rows(3) == (5, 6)
    # (all numbers that SQLite has)
    assert Window().ranges(3).southern_rows(3) == (-(2**63), 2**63 - 1)
    assert zooms_of("7") == (7, 7) and zooms_of("3-10") == (3, 10)
    for word in ("31", "5-3", "x", "-1", "1-", "٣"):
        with pytest.raises(ValueError):
            zooms_of(word)
    for word in ("1,2,3", "5,0,4,1", "0,1,1,1", "0,0,200,1", "nan,0,1,1", "a,b,c,d"):
        with pytest.raises(ValueError):
            box_of(word)


@pytest.fixture(scope="module")
def zooms(tmp_path_factory: pytest.TempPathFactory) -> pathlib.Path:
    """All tiles of zooms 0 to 4, each of which has a fault."""
    tiles = [Tile(zoom, column, row, FAULT) for zoom in range(5) for column in range(1 << zoom) for row in range(1 << zoom)]
    return write_database(tmp_path_factory.mktemp("zooms") / "zooms.mbtiles", tiles)


WINDOWS: Dict[str, Callable[[int, int, int], bool]] = {
    "--zoom 2": lambda zoom, column, row: zoom == 2,
    "--zoom 1-3": lambda zoom, column, row: 1 <= zoom <= 3,
    # (the north-west quarter of the map, and its middle)
    "--bbox -180,1,-1,85": lambda zoom, column, row: column < max(1, 1 << zoom >> 1) and row < max(1, 1 << zoom >> 1),
    "--zoom 3 --bbox -44,-40,44,40": lambda zoom, column, row: zoom == 3 and column in (3, 4) and row in (3, 4),
}


@pytest.mark.parametrize("words", WINDOWS)
@pytest.mark.parametrize("partition", [3, 4000])
def test_part_of_a_source(zooms: pathlib.Path, tmp_path: pathlib.Path, scheduler: str, words: str, partition: int) -> None:
    it = run(tmp_path / "out", zooms, *words.split(), "--scheduler", scheduler, "--partition", partition)
    assert it.process.returncode == FAULTY, it.stderr
    wanted = {(zoom, column, row) for zoom in range(5) for column in range(1 << zoom) for row in range(1 << zoom) if WINDOWS[words](zoom, column, row)}
    found = [(line["zoom"], line["column"], line["row"]) for line in records(it.output / "faults.jsonl")]
    assert len(found) == len(wanted) and set(found) == wanted and summary(it)["tiles"] == len(wanted)


def test_part_of_a_folder(tmp_path: pathlib.Path, scheduler: str) -> None:
    write_folder(tmp_path / "tiles", [Tile(3, column, row, FAULT) for column in range(8) for row in range(8)])
    it = run(tmp_path / "out", tmp_path / "tiles", "--bbox", "-44,-40,44,40", "--scheduler", scheduler)
    assert {(line["column"], line["row"]) for line in records(it.output / "faults.jsonl")} == {(3, 3), (3, 4), (4, 3), (4, 4)}


def test_layer(tmp_path: pathlib.Path, scheduler: str) -> None:
    """Faults of other layers are passed over, and those of bytes that are no tile aren't."""
    path = write_database(tmp_path / "tiles.mbtiles", [Tile(2, 0, 0, MADE), Tile(2, 1, 0, b"\x1a\x05"), Tile(2, 2, 0, gzip.compress(VALID))])
    first = [line["layer"] for line in records(run(tmp_path / "first", path, "--layer", "ä", "--scheduler", scheduler).output / "faults.jsonl")]
    assert first == ["ä", None]
    several = run(tmp_path / "several", path, "--layer", "ä", "--layer", "roads", "--all", "--scheduler", scheduler)
    assert [line["layer"] for line in records(several.output / "faults.jsonl")] == ["roads", "roads", "ä", None]
    none = run(tmp_path / "none", path, "--layer", "nowhere", "--scheduler", scheduler)
    assert [line["layer"] for line in records(none.output / "faults.jsonl")] == [None]
    assert {mvtgate.faults(MADE)[0].code} == {201}


ALLOWED = [
    (["--max-faults", "112"], FAULTY), (["--max-faults", "113"], VALID_STATUS), (["--max-rate", "11%"], FAULTY), (["--max-rate", "11.04%"], VALID_STATUS),
    (["--max-rate", "0.11"], FAULTY), (["--max-rate", "1"], VALID_STATUS), (["--max-faults", "200", "--max-rate", "0"], FAULTY),
]  # fmt: skip


def test_statuses_of_a_pipeline(planet: Planet, tmp_path: pathlib.Path, scheduler: str) -> None:
    """113 of 1,024 tiles have a fault. (The words may be others when the run is called again.)"""
    assert len(planet.lines) == 113
    words = [planet.path, "--scheduler", scheduler]
    it = run(tmp_path / "out", *words, "--junit", tmp_path / "it.xml")
    for more, status in ALLOWED:
        assert run(it.output, *words, *more).process.returncode == status, more
    [suite] = ElementTree.parse(tmp_path / "it.xml").getroot()
    [case] = suite
    assert (suite.get("tests"), suite.get("failures"), case.get("name"), case.get("classname")) == ("1", "1", "zoom 5", str(planet.path))
    assert str(case[0].get("message")).startswith("113 of 1024 tiles have a fault; the worst is ")
    found = summary(it)
    assert {key: found[key] for key in ("tiles", "valid", "faulty", "failed", "unconfirmed", "profile")} == {
        "tiles": 1024, "valid": 911, "faulty": 113, "failed": 0, "unconfirmed": 0, "profile": "polygon"}  # fmt: skip
    assert sum(found["codes"].values()) == 113 and found["zooms"] == [{"source": str(planet.path), "zoom": 5, "tiles": 1024, "faulty": 113, "failed": 0}]


@pytest.mark.parametrize("words", [["--max-rate", "2"], ["--max-rate", "x"], ["--max-faults", "-1"], ["--zoom", "31"], ["--bbox", "1,2"], ["--bbox", "-1,2"]], ids=str)
def test_wrong_words(planet: Planet, tmp_path: pathlib.Path, words: List[str]) -> None:
    it = run(tmp_path / "out", planet.path, *words)
    assert it.process.returncode == REFUSED and "usage: mvtgate-planet" in it.stderr and not it.output.exists()


def test_report_in_the_place_of_tiles(planet: Planet, tmp_path: pathlib.Path) -> None:
    """Where its name was left out, the next file isn't written over, nor one that is judged."""
    other = tmp_path / "other.mbtiles"
    other.write_bytes(planet.path.read_bytes())
    link = tmp_path / "link"
    link.symlink_to(planet.path)
    before = planet.path.read_bytes()
    for junit in (other, link):
        it = run(tmp_path / "out", "--junit", junit, planet.path)
        assert it.process.returncode == REFUSED and it.said[-1] == f"mvtgate-planet: {junit}: --junit takes the name of a report, and this is that of tiles"
    assert other.read_bytes() == planet.path.read_bytes() == before and link.is_symlink() and not (tmp_path / "out/journal.jsonl").exists()


def test_since_its_own_folder(earlier: Tuple[Planet, Run], tmp_path: pathlib.Path) -> None:
    """As where both are the folder that a run without --output has."""
    planet, was = earlier
    (tmp_path / "link").symlink_to(was.output)
    it = run(tmp_path / "link", planet.path, "--since", was.output)
    assert it.process.returncode == REFUSED
    assert it.said[-1] == f"mvtgate-planet: {was.output}: the earlier run stays, so this one needs another --output"
