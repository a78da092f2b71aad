"""Databases and folders of every form: which are taken, which are refused with which sentence, and which of their tiles can't be judged."""
from __future__ import annotations

import gzip
import pathlib
import shutil
import sqlite3
import zlib
from typing import Any, Dict, List, Tuple

import pytest

from mvtgate._files import LIMIT
from mvtgate.planet.sources import Source, open_source
from planet.helpers.forms import write_folder, write_view
from planet.helpers.planets import Planet, full_zoom
from planet.helpers.runs import INDEX, REFUSED, SAMPLE, TABLE, UNJUDGED, VALID, Run, Tile, expect_whole, faults_text, records, run, write_database

FAULT = SAMPLE["crossing_edges"].tile


@pytest.mark.parametrize("partition", [1, 7, 64, 4000])
def test_same_tiles_in_each_form(tmp_path: pathlib.Path, scheduler: str, partition: int) -> None:
    """A table, a view and a folder in one run, named by words and by a list; the rows of each from the north and from the south."""
    planets = [full_zoom(tmp_path / name, 3) for name in ("table.mbtiles", "view é.mbtiles", "folder")]
    for planet, write in zip(planets[1:], (write_view, write_folder)):
        planet.path.unlink()
        write(planet.path, planet.tiles)
    (tmp_path / "names").write_text(f"{planets[1].path}\n\n{planets[2].path}\n")
    it = run(tmp_path / "out", planets[0].path, "--list", tmp_path / "names", "--scheduler", scheduler, "--partition", partition)
    assert it.process.returncode == 1, it.stderr
    # (a folder counts its rows from the north, and so its tiles stand in that order)
    northern = sorted(planets[2].lines)
    expected = planets[0].text + planets[1].text + planets[2].text_of(northern)
    assert faults_text(it.output) == expected
    assert it.said[-1].startswith("192 tiles: 171 valid, 21 with a fault; see ")


def places_of(source: Source, partition: int) -> Tuple[List[Tuple[int, int, int]], List[int]]:
    """The places that the parts of a source have, and how many tiles each says it has."""
    places, sizes = [], []
    for part in source.partitions(0, partition):
        found = [(part.zoom, it.column, it.row) for it in source.tiles(part)]
        assert len(found) == part.tiles == len(list(source.places(part)))
        places += found
        sizes.append(part.tiles)
    return places, sizes


@pytest.mark.parametrize("partition", [1, 2, 3, 5, 16, 63, 64, 65, 1000])
@pytest.mark.parametrize("form", ["table", "folder"])
def test_each_tile_is_in_one_part(tmp_path: pathlib.Path, form: str, partition: int) -> None:
    """Columns of one tile and of 64, zooms apart, and none that is empty."""
    tiles = [Tile(2, 0, 0, VALID), *(Tile(6, 9, row, VALID) for row in range(64)), *(Tile(6, column, 5, VALID) for column in range(10, 20))]
    path = tmp_path / "source"
    if form == "table":
        write_database(path, tiles)
    for it in tiles if form == "folder" else ():
        _put(path, it)
    places, sizes = places_of(open_source(str(path)), partition)
    assert sorted(places) == sorted((it.zoom, it.column, it.row) for it in tiles)
    assert max(sizes) <= partition and len(sizes) >= len(tiles) / partition


def _put(folder: pathlib.Path, tile: Tile) -> None:
    where = folder / str(tile.zoom) / str(tile.column)
    where.mkdir(parents=True, exist_ok=True)
    (where / f"{tile.row}.mvt").write_bytes(tile.stored)


@pytest.mark.parametrize("partition", [1, 2, 3, 4, 5, 100])
def test_tiles_at_one_place(tmp_path: pathlib.Path, partition: int) -> None:
    """They stay together, so a part may have more tiles than it should."""
    rows = [0, 1, 1, 1, 2, 3, 3]
    path = write_database(tmp_path / "tiles", [Tile(2, 1, row, VALID) for row in rows], index=INDEX.replace("UNIQUE", ""))
    places, _ = places_of(open_source(str(path)), partition)
    assert sorted(row for _, _, row in places) == rows
    parts = list(open_source(str(path)).partitions(0, partition))
    assert all(one.last < other.first for one, other in zip(parts, parts[1:]))


def test_two_tiles_at_one_place_are_judged(tmp_path: pathlib.Path, scheduler: str) -> None:
    planet = Planet(tmp_path / "tiles.mbtiles")
    planet.add(1, 0, 0, "ring_without_area")
    planet.add(1, 0, 0, "crossing_edges")
    planet.write(is_unique=False)
    it = run(tmp_path / "out", planet.path, "--scheduler", scheduler, "--partition", 1)
    lines = records(it.output / "faults.jsonl")
    assert [(line["fault"]["code"], line["confirmed"]) for line in lines] == [(502, True), (504, True)]


LARGE = b"\0" * (LIMIT + 1)
FAILING: List[Tuple[Any, int, str]] = [
    (None, 0, "there are no bytes in the database (NULL)"),
    (LARGE, LIMIT + 1, f"{LIMIT + 1} bytes are stored, more than {LIMIT}"),
    (LARGE.decode(), LIMIT + 1, f"{LIMIT + 1} bytes are stored, more than {LIMIT}"),
    (gzip.compress(LARGE, 1), -1, f"it is larger than {LIMIT} bytes"),
    (zlib.compress(LARGE, 1), -1, f"it is larger than {LIMIT} bytes"),
    (gzip.compress(FAULT) + b"\0\0\0", -1, "there are 3 bytes after the end of the gzip stream"),
    (gzip.compress(FAULT) * 2, -1, f"there are {len(gzip.compress(FAULT))} bytes after the end of the gzip stream"),
    (gzip.compress(FAULT)[:-1], -1, "the gzip stream is cut"),
    (b"\x1f\x8b", -1, "the gzip stream is cut"),
    (zlib.compress(FAULT)[:-1], -1, "the zlib stream is cut"),
    (zlib.compress(FAULT)[:-1] + b"\0", -1, "the zlib stream is broken: Error -3 while decompressing data: incorrect data check"),
    (b"\x1f\x8bnot gzip", -1, "the gzip stream is broken: Error -3 while decompressing data: unknown compression method"),
    (b"\x1f\x8b\x08\xff", -1, "the gzip stream is broken: Error -3 while decompressing data: unknown header flags set"),
]


def test_tiles_that_cannot_be_judged(tmp_path: pathlib.Path, scheduler: str) -> None:
    """Each has a line of its own, among tiles that are judged. A text, or a number, is judged by its bytes."""
    planet = Planet(tmp_path / "tiles.mbtiles")
    for row, (stored, size, error) in enumerate(FAILING):
        planet.fail(5, 3, row, stored, len(stored) if size < 0 else size, error)
    planet.add(5, 3, 30, None)
    planet.put(5, 3, 31, VALID.decode(), len(VALID), None)
    planet.put(6, 0, 0, SAMPLE["no_such_key"].tile.decode(), len(SAMPLE["no_such_key"].tile), "no_such_key")
    planet.write()
    it = run(tmp_path / "out", planet.path, "--scheduler", scheduler)
    expect_whole(planet, it, status=2)
    assert it.said[-1].startswith(f"{len(FAILING) + 3} tiles: 2 valid, 1 with a fault, {len(FAILING)} not judged; see ")


def test_files_that_cannot_be_judged(tmp_path: pathlib.Path, scheduler: str) -> None:
    folder = tmp_path / "tiles"
    _put(folder, Tile(1, 0, 0, LARGE))
    (folder / "1/0/1.mvt").mkdir()
    it = run(tmp_path / "out", folder, "--scheduler", scheduler)
    assert it.process.returncode == UNJUDGED
    told = [(line["row"], line["tms_row"], line["size"], line["error"]) for line in records(it.output / "faults.jsonl")]
    assert told == [(0, 1, LIMIT + 1, f"it is larger than {LIMIT} bytes"), (1, 0, 0, "Is a directory")]


def refuse(it: Run, *parts: str) -> None:
    """It said one sentence, and left no folder with results."""
    assert (it.process.returncode, it.stdout, len(it.said)) == (REFUSED, "", 1), it.stderr
    assert it.said[0].startswith("mvtgate-planet: ") and all(part in it.said[0] for part in parts), it.said
    assert not it.output.exists()


PLACE: Tuple[Any, ...] = (1, 0, 0, VALID)
WRONG: Dict[str, Tuple[Tuple[Any, ...], str]] = {
    "zoom of text": (("first", 0, 0, VALID), "there is a tile of zoom 'first'"),
    "zoom of NULL": ((None, 0, 0, VALID), "there is a tile of zoom None"),
    "zoom of 31": ((31, 0, 0, VALID), "there is a tile of zoom 31"),
    "zoom below 0": ((-1, 0, 0, VALID), "there is a tile of zoom -1"),
    "column of text": ((1, "x", 0, VALID), "there is a tile at zoom 1 whose column or row is no whole number"),
    "row of NULL": ((1, 0, None, VALID), "there is a tile at zoom 1 whose column or row is no whole number"),
    "row with a fraction": ((1, 0, 0.5, VALID), "there is a tile at zoom 1 whose column or row is no whole number"),
}


@pytest.mark.parametrize("row, said", WRONG.values(), ids=WRONG)
def test_places_that_are_none(tmp_path: pathlib.Path, row: Tuple[Any, ...], said: str) -> None:
    """Such a tile can't be named by its place, so the whole file is refused."""
    path = write_database(tmp_path / "tiles.mbtiles", [])
    with sqlite3.connect(path) as database:
        database.executemany("INSERT INTO tiles VALUES (?, ?, ?, ?)", [(0, 0, 0, VALID), row])
    refuse(run(tmp_path / "out", path), f"{path}: {said}")


@pytest.mark.parametrize("index", ["", "CREATE INDEX other ON tiles (tile_column)", "CREATE INDEX rows ON tiles (zoom_level, tile_row, tile_column)"])
def test_no_index(tmp_path: pathlib.Path, index: str) -> None:
    path = write_database(tmp_path / "tiles.mbtiles", [Tile(1, 0, 0, VALID)], index=index)
    refuse(run(tmp_path / "out", path), f"{path} has no index for its tiles", INDEX)


def test_made_index(tmp_path: pathlib.Path, scheduler: str) -> None:
    """The one that the sentence names is enough, and so is a table that is kept in this order."""
    kept = TABLE.replace("tile_data BLOB)", "tile_data BLOB, PRIMARY KEY (zoom_level, tile_column, tile_row)) WITHOUT ROWID")
    first = write_database(tmp_path / "a.mbtiles", [Tile(1, 0, 0, VALID)])
    second = write_database(tmp_path / "b.mbtiles", [Tile(1, 0, 0, VALID)], table=kept, index="")
    assert run(tmp_path / "out", first, second, "--scheduler", scheduler).process.returncode == 0


def test_changes_beside_the_file(tmp_path: pathlib.Path) -> None:
    """A program has it open and has written, or has ended in the middle of a change."""
    path = write_database(tmp_path / "tiles.mbtiles", [Tile(1, 0, 0, VALID)])
    database = sqlite3.connect(path, isolation_level=None)
    database.execute("PRAGMA journal_mode=WAL")
    database.execute("UPDATE tiles SET tile_data = x'00'")
    refuse(run(tmp_path / "out", path), f"{path}: a program is writing to it, or left changes in {path}-wal")
    # (and by a link, beside which there is nothing)
    link = tmp_path / "elsewhere" / "link.mbtiles"
    link.parent.mkdir()
    link.symlink_to(path)
    refuse(run(tmp_path / "out", link), f"{link}: a program is writing to it, or left changes in {path}-wal")
    database.execute("PRAGMA journal_mode=DELETE")
    database.execute("PRAGMA cache_size=1")
    database.execute("BEGIN")
    database.execute("INSERT INTO tiles VALUES (1, 1, 1, zeroblob(100000))")
    for name in ("tiles.mbtiles", "tiles.mbtiles-journal"):
        shutil.copy(tmp_path / name, tmp_path / f"ended-{name}")
    database.execute("ROLLBACK")
    database.close()
    left = tmp_path / "ended-tiles.mbtiles"
    refuse(run(tmp_path / "out", left), f"{left}: a program is writing to it, or left changes in {left}-journal")


def test_journal_that_is_done_with(tmp_path: pathlib.Path, scheduler: str) -> None:
    path = write_database(tmp_path / "tiles.mbtiles", [Tile(1, 0, 0, VALID)])
    with sqlite3.connect(path) as database:
        database.execute("PRAGMA journal_mode=PERSIST")
        database.execute("UPDATE tiles SET tile_row = 1")
    database.close()
    assert (tmp_path / "tiles.mbtiles-journal").stat().st_size > 0
    assert run(tmp_path / "out", path, "--scheduler", scheduler).process.returncode == 0


def test_nothing_to_judge(tmp_path: pathlib.Path) -> None:
    """Each of these, also beside a file that has tiles."""
    good = write_database(tmp_path / "good.mbtiles", [Tile(0, 0, 0, VALID)])
    empty = write_database(tmp_path / "empty.mbtiles", [])
    none = tmp_path / "none.mbtiles"
    sqlite3.connect(none).close()
    text = tmp_path / "text.mbtiles"
    text.write_text("not a database, but a text of some length\n" * 50)
    folder = tmp_path / "folder"
    (folder / "0/0").mkdir(parents=True)
    missing = tmp_path / "missing"
    out = tmp_path / "out"
    refuse(run(out, good, empty), f"{empty}: there is no tile in it")
    refuse(run(out, folder, good), f"{folder}: there is no tile in it")
    refuse(run(out, none), f"{none}: no such table: tiles")
    refuse(run(out, text), f"{text}: file is not a database")
    refuse(run(out, missing), f"{missing}: there is no such file or folder")
    refuse(run(out, "--list", missing), f"{missing}: No such file or directory")
    refuse(run(out), "no FILE is named")


def test_list_with_zero_bytes(tmp_path: pathlib.Path) -> None:
    """As `find -print0` writes one."""
    names = tmp_path / "names"
    names.write_bytes(b"one\0other\0")
    refuse(run(tmp_path / "out", "--list", names), f"{names}: it has zero bytes")


def test_path_with_two_slashes(tmp_path: pathlib.Path, scheduler: str) -> None:
    path = write_database(tmp_path / "tiles.mbtiles", [Tile(0, 0, 0, FAULT)])
    it = run(tmp_path / "out", f"/{path}", "--mend", tmp_path / "made.mbtiles", "--scheduler", scheduler)
    assert it.process.returncode == 0 and (tmp_path / "made.mbtiles").exists(), it.stderr


def test_name_that_is_no_text(tmp_path: pathlib.Path, scheduler: str) -> None:
    """The bytes of a file's name may be any; in a line they are written as JSON writes half a pair."""
    path = pathlib.Path(f"{tmp_path}/a?b%23 \udcff#.mbtiles")
    write_database(tmp_path / "plain", [Tile(0, 0, 0, FAULT)]).rename(path)
    it = run(tmp_path / "out", path, "--scheduler", scheduler)
    assert it.process.returncode == 1, it.stderr
    [line] = records(it.output / "faults.jsonl")
    assert line["source"] == str(path) and line["fault"]["code"] == 504
