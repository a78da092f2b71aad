"""mvtgate-planet --mend: the copy that it writes of each kind of source, what it says of the changes, and runs that are killed."""
from __future__ import annotations

import gzip
import math
import os
import pathlib
import re
import signal
import sqlite3
import stat
import subprocess
import sys
import zlib
from typing import Any, Dict, Iterator, List, Optional, Tuple

import pytest

import mvtgate
from mvtgate import Profile
from mvtgate.planet.endings import Unfinished
from mvtgate.planet.mending.copy import Replaced
from mvtgate.planet.mending.mbtiles import CopyOfMbtiles
from mvtgate.planet.records import Place
from mvtgate.planet.unpack import packing_of, unpacked
from planet.conftest import Gate
from planet.helpers.forms import VIEW
from planet.helpers.planets import Planet
from planet.helpers.runs import FAULTY, INDEX, REFUSED, SAMPLE, TABLE, UNFINISHED, VALID, VALID_STATUS, Run, Tile, journal, place, records, run
from planet.helpers.runs import write_database

FAULT, NO_KEY, NOTHING = (SAMPLE[it].tile for it in ("crossing_edges", "no_such_key", "ring_without_area"))
HOLE = SAMPLE["hole_outside"].tile
SHALLOW = """
    CREATE TABLE tiles_shallow (zoom_level INTEGER, tile_column INTEGER, tile_row INTEGER, tile_data_id INTEGER,
        PRIMARY KEY (zoom_level, tile_column, tile_row)) WITHOUT ROWID;
    CREATE TABLE tiles_data (tile_data_id INTEGER PRIMARY KEY, tile_data BLOB);
    CREATE VIEW tiles AS SELECT tiles_shallow.zoom_level AS zoom_level, tiles_shallow.tile_column AS tile_column,
        tiles_shallow.tile_row AS tile_row, tiles_data.tile_data AS tile_data
        FROM tiles_shallow JOIN tiles_data ON tiles_shallow.tile_data_id = tiles_data.tile_data_id;"""
METADATA = """
    CREATE TABLE metadata (name TEXT, value TEXT); CREATE UNIQUE INDEX name ON metadata (name);
    INSERT INTO metadata VALUES ('name', 'a planet'), ('format', 'pbf'), ('json', '{"vector_layers":[]}');"""
# tiles that can be mended, packed in each way, tiles that can't, and valid ones
TILES = [
    Tile(3, 1, 1, FAULT), Tile(3, 1, 2, gzip.compress(FAULT)), Tile(3, 2, 1, zlib.compress(FAULT)), Tile(3, 2, 2, gzip.compress(VALID, 1)),
    Tile(3, 3, 1, NO_KEY), Tile(3, 3, 2, gzip.compress(NOTHING)), Tile(3, 4, 4, VALID), Tile(4, 3, 2, gzip.compress(HOLE)),
]  # fmt: skip


def mended(stored: bytes, drop: bool = False) -> Optional[bytes]:
    """The bytes of the tile that is to be in its place, unpacked. None where it stays."""
    try:
        return mvtgate.mend(unpacked(stored), drop=drop).tile
    except mvtgate.Refused:
        return None


def expect_tiles(found: Dict[Tuple[int, int, int], bytes], tiles: List[Tile], drop: bool = False) -> None:
    """Each tile is mended, and packed as it was, or is byte for byte the same."""
    assert sorted(found) == sorted((it.zoom, it.column, it.row) for it in tiles)
    for it in tiles:
        data, wanted = found[it.zoom, it.column, it.row], mended(it.stored, drop)
        if wanted is None or wanted == unpacked(it.stored):
            assert data == it.stored
        else:
            assert unpacked(data) == wanted and packing_of(data) is packing_of(it.stored) and mvtgate.check(wanted) is None


def rows(path: pathlib.Path, query: str) -> List[Any]:
    database = sqlite3.connect(path)
    found = database.execute(query).fetchall()
    database.close()
    return found


def tiles_of(path: pathlib.Path) -> Dict[Tuple[int, int, int], bytes]:
    found = rows(path, "SELECT zoom_level, tile_column, (1 << zoom_level) - 1 - tile_row, CAST(tile_data AS BLOB) FROM tiles")
    return {(zoom, column, row): data for zoom, column, row, data in found}


def table_of(path: pathlib.Path) -> None:
    """A table, which counts its rows from the south."""
    write_database(path, TILES)


def shared(path: pathlib.Path, schema: str, places: str, data: str, key: str) -> None:
    """Tables in which equal tiles are stored once."""
    database = sqlite3.connect(path)
    database.executescript(schema)
    numbers: Dict[bytes, int] = {}
    for it in TILES + SAME:
        number = numbers.setdefault(it.stored, len(numbers))
        database.execute(f"INSERT INTO {places} (zoom_level, tile_column, tile_row, {key}) VALUES (?, ?, ?, ?)", (it.zoom, it.column, it.tms_row, number))
    database.executemany(f"INSERT INTO {data} (tile_data, {key}) VALUES (?, ?)", numbers.items())
    database.commit()
    database.close()


# a mended tile, a valid one and one that stays, at further places
SAME = [Tile(5, column, 7, it.stored) for column, it in enumerate((TILES[0], TILES[0], TILES[1], TILES[3], TILES[4]))]
SCHEMAS = {"map and images": (VIEW, "map", "images", "tile_id"), "shallow": (SHALLOW, "tiles_shallow", "tiles_data", "tile_data_id")}


def with_metadata(path: pathlib.Path) -> pathlib.Path:
    database = sqlite3.connect(path)
    database.executescript(METADATA)
    database.close()
    return path


def expect_same_database(made: pathlib.Path, path: pathlib.Path) -> None:
    """All but the bytes of tiles is as it was."""
    for query in ("SELECT type, name, tbl_name, sql FROM sqlite_master", "SELECT * FROM metadata", "PRAGMA page_size", "PRAGMA user_version", "PRAGMA journal_mode"):
        assert rows(made, query) == rows(path, query)
    assert rows(made, "PRAGMA integrity_check") == [("ok",)]


@pytest.mark.parametrize("kind", ["table", *SCHEMAS])
def test_databases(tmp_path: pathlib.Path, scheduler: str, kind: str) -> None:
    """A table, and views that share tiles: one image that is mended serves all its places."""
    path, made = tmp_path / "tiles.mbtiles", tmp_path / "made.mbtiles"
    table_of(path) if kind == "table" else shared(path, *SCHEMAS[kind])
    with_metadata(path)
    before = path.read_bytes()
    it = run(tmp_path / "out", path, "--mend", made, "--scheduler", scheduler, "--partition", 3)
    assert it.process.returncode == FAULTY, it.stderr
    tiles = TILES if kind == "table" else TILES + SAME
    expect_tiles(tiles_of(made), tiles)
    expect_same_database(made, path)
    assert path.read_bytes() == before and sorted(it.name for it in tmp_path.iterdir()) == ["made.mbtiles", "out", "tiles.mbtiles"]
    if kind != "table":
        _, _, data, _ = SCHEMAS[kind]
        assert rows(made, f"SELECT count(*) FROM {data}") == rows(path, f"SELECT count(*) FROM {data}")
    faulty, stay = (6, 2) if kind == "table" else (10, 3)
    assert f"{len(tiles)} tiles: {len(tiles) - faulty} valid, {faulty} with a fault; {faulty - stay} mended, {stay} not mended; see " in it.said[-1]


def test_no_polygon_s_fault_is_left(planet: Planet, tmp_path: pathlib.Path, scheduler: str) -> None:
    made = tmp_path / "made.mbtiles"
    it = run(tmp_path / "out", planet.path, "--mend", made, "--drop", "--scheduler", scheduler, "--partition", 64)
    assert it.process.returncode == FAULTY, it.stderr
    again = run(tmp_path / "again", made, "--scheduler", scheduler)
    codes = {line["fault"]["code"] for line in records(again.output / "faults.jsonl")}
    assert codes and not any(code > 500 for code in codes)
    before, after = len(planet.lines), len(records(again.output / "faults.jsonl"))
    assert f"; {before - after} mended, {after} not mended; see " in it.said[-1]


@pytest.mark.parametrize("drop", [False, True])
def test_folder(tmp_path: pathlib.Path, scheduler: str, drop: bool) -> None:
    """All files are there by their names, also those that are no tiles."""
    folder, made = tmp_path / "tiles", tmp_path / "made"
    names = {}
    for number, tile in enumerate(TILES):
        names[tile] = f"{tile.zoom}/{tile.column}/{tile.row}{['.mvt', '.pbf', '.mvt.gz', '.pbf.gz'][number % 4]}"
        (folder / names[tile]).parent.mkdir(parents=True, exist_ok=True)
        (folder / names[tile]).write_bytes(tile.stored)
    (folder / "metadata.json").write_text("{}")
    (folder / "3/readme").write_bytes(FAULT)
    it = run(tmp_path / "out", folder, "--mend", made, *["--drop"] * drop, "--scheduler", scheduler)
    assert it.process.returncode == FAULTY, it.stderr
    expect_tiles({(tile.zoom, tile.column, tile.row): (made / name).read_bytes() for tile, name in names.items()}, TILES, drop)
    assert sorted(str(it.relative_to(made)) for it in made.rglob("*")) == sorted(str(it.relative_to(folder)) for it in folder.rglob("*"))
    assert (made / "3/readme").read_bytes() == FAULT and (made / "metadata.json").read_text() == "{}"
    assert (folder / names[TILES[0]]).read_bytes() == FAULT


def folder_of(path: pathlib.Path, stored: bytes = FAULT) -> pathlib.Path:
    """A folder with one tile."""
    (path / "3/1").mkdir(parents=True)
    (path / "3/1/1.mvt").write_bytes(stored)
    return path


@pytest.mark.parametrize("end", ["/", "//", "/."])
def test_name_of_a_folder_that_ends_with_a_slash(tmp_path: pathlib.Path, scheduler: str, end: str) -> None:
    """The copy is there under its name, and there is nothing else in it."""
    folder, made = folder_of(tmp_path / "tiles"), tmp_path / "made"
    it = run(tmp_path / "out", folder, "--mend", f"{made}{end}", "--scheduler", scheduler)
    assert it.process.returncode == VALID_STATUS, it.stderr
    assert [str(it.relative_to(made)) for it in sorted(made.rglob("*"))] == ["3", "3/1", "3/1/1.mvt"]
    assert (made / "3/1/1.mvt").read_bytes() == mended(FAULT)


def test_folder_that_is_closed_to_writing(tmp_path: pathlib.Path, scheduler: str) -> None:
    """The copy's files can be written to, and else have the modes and times that they had. What an earlier call left is taken away."""
    folder, made = folder_of(tmp_path / "tiles"), tmp_path / "made"
    folder_of(tmp_path / "made.part", b"left")
    before = folder / "3/1/1.mvt"
    os.utime(before, (1e9, 1e9))
    before.chmod(0o440)
    for closed in (folder / "3/1", tmp_path / "made.part/3/1"):
        closed.chmod(0o555)
    try:
        it = run(tmp_path / "out", folder, "--mend", made, "--scheduler", scheduler)
        assert it.process.returncode == VALID_STATUS, it.stderr
        after = made / "3/1/1.mvt"
        assert after.read_bytes() == mended(FAULT) and stat.S_IMODE(after.stat().st_mode) == 0o640 and before.stat().st_mtime == 1e9
    finally:
        for path in tmp_path.rglob("3/1"):
            path.chmod(0o755)


def lon(zoom: int, column: float) -> float:
    return column / (1 << zoom) * 360 - 180


def lat(zoom: int, row: float) -> float:
    return math.degrees(2 * math.atan(math.exp(math.pi * (1 - 2 * row / (1 << zoom)))) - math.pi / 2)


def test_changes(tmp_path: pathlib.Path, scheduler: str) -> None:
    """A line for each changed feature, with what the library reports, and its bounds on the earth."""
    path = write_database(tmp_path / "tiles.mbtiles", TILES)
    it = run(tmp_path / "out", path, "--mend", tmp_path / "made.mbtiles", "--drop", "--scheduler", scheduler)
    lines = records(it.output / "changes.jsonl")
    changed = [tile for tile in sorted(TILES, key=lambda it: (it.zoom, it.column, it.tms_row)) if mended(tile.stored, True) not in (None, unpacked(tile.stored))]
    assert [(line["zoom"], line["column"], line["row"]) for line in lines] == [(tile.zoom, tile.column, tile.row) for tile in changed]
    for tile, line in zip(changed, lines):
        [change] = mvtgate.mend(unpacked(tile.stored), drop=True).changed
        layer = mvtgate.dump(unpacked(tile.stored))["layers"][change.layer]
        assert {key: line[key] for key in ("layer", "feature", "what")} == {"layer": layer["name"], "feature": change.feature, "what": change.what}
        assert {key: line[key] for key in place(path, tile)} == place(path, tile)
        if change.area is not None:
            assert (line["area_before"], line["area_after"]) == tuple(map(float, change.area))
            assert line["polygons"] == list(change.polygons or ()) and line["cuts"] == change.cuts
    # (crossing_edges has the positions (0, 0) to (10, 10), of an extent of 4096)
    [line] = [it for it in lines if (it["column"], it["row"]) == (1, 1)]
    xs, ys = positions(FAULT)
    wanted = [lon(3, 1 + min(xs) / 4096), lat(3, 1 + max(ys) / 4096), lon(3, 1 + max(xs) / 4096), lat(3, 1 + min(ys) / 4096)]
    assert all(abs(one - other) < 2e-9 for one, other in zip(line["bounds"], wanted))
    assert {line["row"]: line.get("mended") for line in records(it.output / "faults.jsonl") if line["column"] == 3} == {1: False, 2: True}


def positions(tile: bytes) -> Tuple[List[int], List[int]]:
    """The coordinates of the one feature of a tile, from its dump."""
    [layer] = mvtgate.dump(tile)["layers"]
    [feature] = layer["features"]
    xs, ys, x, y = [], [], 0, 0
    numbers = iter(feature["geometry"])
    for number in numbers:
        for _ in range(number >> 3 if number & 7 != 7 else 0):
            dx, dy = next(numbers), next(numbers)
            x, y = x + (dx >> 1 ^ -(dx & 1)), y + (dy >> 1 ^ -(dy & 1))
            xs.append(x)
            ys.append(y)
    return xs, ys


def test_profile_feature(tmp_path: pathlib.Path, scheduler: str) -> None:
    overlap = SAMPLE["polygons_that_overlap"].tile
    path = write_database(tmp_path / "tiles.mbtiles", [Tile(2, 1, 1, overlap)])
    it = run(tmp_path / "out", path, "--profile", "feature", "--mend", tmp_path / "made.mbtiles", "--scheduler", scheduler)
    assert it.process.returncode == VALID_STATUS, it.stderr
    assert tiles_of(tmp_path / "made.mbtiles") == {(2, 1, 1): mvtgate.mend(overlap, Profile.FEATURE).tile}


def words_of(planet: Planet, folder: pathlib.Path) -> List[object]:
    return [planet.path, "--mend", folder / "made.mbtiles", "--partition", 16]


def whole(planet: Planet, folder: pathlib.Path) -> None:
    """The copy is there, and nothing beside it."""
    expect_tiles(tiles_of(folder / "made.mbtiles"), planet.tiles)
    assert not list(folder.glob("made.mbtiles.*"))


def test_killed_while_it_judges(planet: Planet, tmp_path: pathlib.Path, gate: Gate, scheduler: str) -> None:
    """The same words go on, with the bytes that it has; those behind the last line of the journal are taken away."""
    words = words_of(planet, tmp_path)
    it = Run(tmp_path / "out", *words, "--workers", 2, env=gate.env)
    it.wait_for_lines(10)
    it.process.kill()
    it.end()
    gate.open()
    assert not (tmp_path / "made.mbtiles").exists() and not (it.output / "changes.jsonl").exists()
    done = journal(it.output)
    with open(it.output / "journal.bin", "ab") as store:
        store.write(b"of a line that was never written")
    again = run(it.output, *words, "--scheduler", scheduler)
    assert again.process.returncode == FAULTY, again.stderr
    assert journal(it.output)[: len(done)] == done
    whole(planet, tmp_path)


# a program that is killed just before it puts the copy under its name
KILLED = [sys.executable, "-c", "import os, sys; os.rename = lambda *_: os.kill(os.getpid(), 9); import mvtgate.planet.__main__ as m; sys.exit(m.main())"]


def test_killed_while_it_writes_the_copy(planet: Planet, tmp_path: pathlib.Path, scheduler: str) -> None:
    words = [*words_of(planet, tmp_path), "--scheduler", scheduler]
    it = Run(tmp_path / "out", *words, program=KILLED)
    assert it.end() == -signal.SIGKILL
    assert not (tmp_path / "made.mbtiles").exists() and (tmp_path / "made.mbtiles.part").exists()
    # (as if it had been killed in the middle of a write)
    with open(tmp_path / "made.mbtiles.part", "r+b") as part:
        part.truncate(5000)
    (tmp_path / "made.mbtiles.part-journal").write_bytes(b"left")
    assert run(it.output, *words).process.returncode == FAULTY
    whole(planet, tmp_path)
    # (called once more there is nothing to do)
    made = (tmp_path / "made.mbtiles").stat()
    assert run(it.output, *words).process.returncode == FAULTY
    assert (tmp_path / "made.mbtiles").stat().st_ino == made.st_ino


def test_store_that_lacks(planet: Planet, tmp_path: pathlib.Path, scheduler: str) -> None:
    words = [*words_of(planet, tmp_path), "--scheduler", scheduler]
    it = run(tmp_path / "out", *words)
    (it.output / "journal.bin").write_bytes(b"")
    (tmp_path / "made.mbtiles").unlink()
    again = run(it.output, *words)
    assert again.process.returncode == REFUSED and "journal.bin has 0 bytes where the journal says" in again.said[0]


def refuse(it: Run, *parts: str) -> None:
    assert (it.process.returncode, len(it.said)) == (REFUSED, 1), it.stderr
    assert all(part in it.said[0] for part in parts), it.said


def test_nothing_is_written_over(tmp_path: pathlib.Path) -> None:
    path = write_database(tmp_path / "tiles.mbtiles", TILES)
    other = write_database(tmp_path / "other.mbtiles", TILES)
    refuse(run(tmp_path / "out", path, "--mend", other), f"{other} is there already")
    refuse(run(tmp_path / "out", path, "--mend", other, "--anew"), f"{other} is there already")
    refuse(run(tmp_path / "out", path, "--mend", path), f"{path} is there already")
    refuse(run(tmp_path / "out", path, other, "--mend", tmp_path / "made"), "--mend takes one FILE")
    refuse(run(tmp_path / "out", path, "--drop"), "--drop is for --mend")
    folder = tmp_path / "folder/3/1"
    folder.mkdir(parents=True)
    (folder / "1.mvt").write_bytes(FAULT)
    refuse(run(tmp_path / "out", tmp_path / "folder", "--mend", folder / "made"), "lies in the folder that is judged")
    assert tiles_of(other) == tiles_of(path)


def test_source_under_the_name_of_the_part(tmp_path: pathlib.Path) -> None:
    """Such as a file that was fetched under this name: it stays, and so does what is in a folder of this name."""
    path = write_database(tmp_path / "tiles.mbtiles.part", TILES)
    refuse(run(tmp_path / "out", path, "--mend", tmp_path / "tiles.mbtiles"), f"{path} is written over")
    folder = folder_of(tmp_path / "folder.part")
    refuse(run(tmp_path / "out", folder, "--mend", tmp_path / "folder"), f"{folder} is written over")
    inner = write_database(folder / "tiles.mbtiles", TILES)
    refuse(run(tmp_path / "out", inner, "--mend", tmp_path / "folder"), f"{folder} is written over")
    assert tiles_of(path) == tiles_of(inner) and (folder / "3/1/1.mvt").read_bytes() == FAULT
    # (nor is the folder with the results there)
    refuse(run(tmp_path / "it.part", inner, "--mend", tmp_path / "it"), f"{tmp_path / 'it.part'} is written over")


def test_databases_that_are_not_mended(tmp_path: pathlib.Path) -> None:
    """What can't be kept as it is, is told before anything is judged."""
    path = write_database(tmp_path / "tiles.mbtiles", TILES)
    with sqlite3.connect(path) as database:
        database.execute("CREATE TRIGGER it AFTER UPDATE ON tiles BEGIN DELETE FROM tiles; END")
    database.close()
    refuse(run(tmp_path / "out", path, "--mend", tmp_path / "made"), f"{path}: it has triggers")
    view = tmp_path / "view.mbtiles"
    with sqlite3.connect(view) as database:
        database.executescript(f"{TABLE.replace('tiles', 'all_tiles')}; {INDEX.replace('tiles', 'all_tiles')}; CREATE VIEW tiles AS SELECT * FROM all_tiles;")
        database.execute("INSERT INTO all_tiles VALUES (0, 0, 0, ?)", (FAULT,))
    database.close()
    refuse(run(tmp_path / "out", view, "--mend", tmp_path / "made"), f"{view}: its view of tiles isn't one over")


def test_full_disk(planet: Planet, tmp_path: pathlib.Path, small_disk: pathlib.Path, scheduler: str) -> None:
    """The copy has no room: the same words go on where there is some."""
    words = [planet.path, "--mend", small_disk / "made.mbtiles", "--scheduler", scheduler]
    it = run(tmp_path / "out", *words)
    assert it.process.returncode == UNFINISHED and f"{small_disk / 'made.mbtiles'}: " in it.said[0], it.stderr
    subprocess.run(["mount", "-o", "remount,size=8m", str(small_disk)], check=True)
    assert run(tmp_path / "out", *words).process.returncode == FAULTY
    whole(planet, small_disk)


def test_log_that_stays(tmp_path: pathlib.Path) -> None:
    """What a database's log has, and couldn't be put into the copy, would be missing there: so there is none."""
    path, made = write_database(tmp_path / "tiles.mbtiles", TILES), tmp_path / "made.mbtiles"
    assert rows(path, "PRAGMA journal_mode=WAL") == [("wal",)]
    copy, holders = CopyOfMbtiles(str(path), str(made)), []

    def tiles() -> Iterator[Replaced]:
        # (as long as another connection reads the file, nothing of a log is put into it)
        holders.append(sqlite3.connect(f"{made}.part", isolation_level=None))
        holders[0].execute("BEGIN")
        holders[0].execute("SELECT count(*) FROM tiles").fetchone()
        yield Replaced(Place(0, 3, 1, 1), FAULT, VALID)

    with pytest.raises(Unfinished, match="another program reads the copy"):
        copy.write(tiles())
    assert not made.exists()
    holders[0].close()
    copy.write(iter([Replaced(Place(0, 3, 1, 1), FAULT, VALID)]))
    assert tiles_of(made)[3, 1, 1] == VALID and not list(tmp_path.glob("made.mbtiles.*"))


def test_wal_and_a_full_disk(tmp_path: pathlib.Path, small_disk: pathlib.Path) -> None:
    """There is room for the copy and for its log, and not for both in one file."""
    subprocess.run(["mount", "-o", "remount,size=3m", str(small_disk)], check=True)
    path = write_database(tmp_path / "tiles.mbtiles", [Tile(10, column, 0, bytes(3000)) for column in range(200)])
    assert rows(path, "PRAGMA journal_mode=WAL") == [("wal",)]
    made = small_disk / "made.mbtiles"
    for length in range(3500, 6000, 250):
        replaced = (Replaced(Place(0, 10, column, 0), bytes(3000), b"x" * length) for column in range(200))
        try:
            CopyOfMbtiles(str(path), str(made)).write(replaced)
        except Unfinished:
            assert not made.exists()
            continue
        assert rows(made, f"SELECT count(*) FROM tiles WHERE length(tile_data) = {length}") == [(200,)]
        made.unlink()


def test_report(tmp_path: pathlib.Path, scheduler: str) -> None:
    """It says how many were mended, and has the largest changes in pictures."""
    path = write_database(tmp_path / "tiles.mbtiles", TILES)
    it = run(tmp_path / "out", path, "--mend", tmp_path / "made.mbtiles", "--scheduler", scheduler)
    html = (it.output / "report.html").read_text()
    [section] = re.findall(r'<section class="block" id="changes".*?</section>', html, re.DOTALL)
    assert "Of 6 tiles with a fault 4 were mended, in 4 features; 2 stay as they were." in section
    found = re.findall(r'<li class="change" data-tile="([^"]*)"', section)
    assert sorted(found) == ["3/1/1", "3/1/2", "3/2/1", "4/3/2"]
    assert section.count("<svg") == 4 and section.count("mask=") == 8
