"""The recipes of README.md, as they stand there, on an MBTiles file, by Python and by the program sqlite3."""
from __future__ import annotations

import gzip
import pathlib
import re
import sqlite3
import subprocess
from typing import Any, Callable, List, Optional

import pytest

import mvtgate
from conftest import FOLDER
from samples import SAMPLES, TOP

VALID, CROSSING = ((TOP / "tiles" / name).read_bytes() for name in ("point.mvt", "crossing_edges.mvt"))
TILES = "CREATE TABLE tiles (zoom_level INTEGER, tile_column INTEGER, tile_row INTEGER, tile_data BLOB)"
INDEX = "CREATE UNIQUE INDEX tile_index ON tiles (zoom_level, tile_column, tile_row)"
INSERT = "INSERT INTO tiles VALUES (0, 0, ?, ?)"
UPSERT = INSERT + " ON CONFLICT (zoom_level, tile_column, tile_row) DO UPDATE SET tile_data = excluded.tile_data"


def recipe(heading: str) -> str:
    """The statements below a heading."""
    text = (FOLDER / "README.md").read_text()
    found = re.search(r"(?ms)^```sql\n(.*?)^```$", text[text.index(f"### {heading}\n") :])
    assert found
    return found[1]


@pytest.fixture
def archive(connect: Callable[..., Any], tmp_path: pathlib.Path) -> Any:
    """An MBTiles file without tiles."""
    database = connect(str(tmp_path / "map.mbtiles"))
    database.execute(TILES)
    database.execute(INDEX)
    return database


@pytest.fixture(params=["a table", "a table without rowid", "triggers that call themselves"])
def each_archive(request: Any, archive: Any) -> Any:
    """The same, also with another table and another setting of SQLite."""
    if request.param == "a table without rowid":
        archive.execute("DROP TABLE tiles")
        archive.execute(TILES[:-1] + ", PRIMARY KEY (zoom_level, tile_column, tile_row)) WITHOUT ROWID")
    if request.param == "triggers that call themselves":
        archive.execute("PRAGMA recursive_triggers = ON")
    return archive


def tiles_of(archive: Any) -> List[Any]:
    """The bytes of all tiles, by their rows."""
    return [tile for (tile,) in archive.execute("SELECT tile_data FROM tiles ORDER BY tile_row")]


def test_refuse_what_is_not_valid(each_archive: Any) -> None:
    each_archive.executescript(recipe("Refuse what isn't valid"))
    for row, tile in enumerate((VALID, gzip.compress(VALID))):
        each_archive.execute(INSERT, (row, tile))
    for faulty in (CROSSING, gzip.compress(CROSSING), gzip.compress(VALID)[:-1], None):
        for statement in (INSERT, UPSERT):
            with pytest.raises(sqlite3.IntegrityError, match="the tile is not valid"):
                each_archive.execute(statement, (7, faulty))
        with pytest.raises(sqlite3.IntegrityError, match="the tile is not valid"):
            each_archive.execute(UPSERT, (0, faulty))
        with pytest.raises(sqlite3.IntegrityError, match="the tile is not valid"):
            each_archive.execute("UPDATE tiles SET tile_data = ?", (faulty,))
    assert tiles_of(each_archive) == [VALID, gzip.compress(VALID)]


def test_mend_what_comes(each_archive: Any) -> None:
    each_archive.executescript(recipe("Mend what comes"))
    each_archive.execute(INSERT, (0, VALID))
    each_archive.execute(INSERT, (1, gzip.compress(CROSSING)))
    each_archive.execute(INSERT, (2, CROSSING))
    for row in (0, 3):
        with pytest.raises(sqlite3.OperationalError, match="the tile can't be mended"):
            each_archive.execute(UPSERT, (row, VALID[:-1]))
        with pytest.raises(sqlite3.IntegrityError, match="the tile is NULL"):
            each_archive.execute(UPSERT, (row, None))
    mended = mvtgate.mend(CROSSING).tile
    tiles = tiles_of(each_archive)
    assert tiles[::2] == [VALID, mended] and gzip.decompress(tiles[1]) == mended and len(tiles) == 3
    assert mvtgate.check(mended) is None
    each_archive.execute(UPSERT, (0, CROSSING))
    each_archive.execute("UPDATE tiles SET tile_data = ? WHERE tile_row = 1", (CROSSING,))
    assert tiles_of(each_archive) == [mended] * 3


def test_mend_what_has_no_address(archive: Any) -> None:
    archive.executescript(recipe("Mend what comes"))
    archive.execute(INSERT, (None, CROSSING))
    assert tiles_of(archive) == [mvtgate.mend(CROSSING).tile]


def test_mend_below_a_view(archive: Any) -> None:
    archive.execute("DROP TABLE tiles")
    archive.execute("CREATE TABLE images (tile_id TEXT PRIMARY KEY, tile_data BLOB)")
    archive.execute("CREATE VIEW tiles AS SELECT 0 AS zoom_level, 0 AS tile_column, tile_id AS tile_row, tile_data FROM images")
    address = "(zoom_level, tile_column, tile_row) IS (NEW.zoom_level, NEW.tile_column, NEW.tile_row)"
    archive.executescript(recipe("Mend what comes").replace(address, "tile_id IS NEW.tile_id").replace(" tiles ", " images "))
    archive.execute("INSERT INTO images VALUES ('0', ?)", (CROSSING,))
    assert tiles_of(archive) == [mvtgate.mend(CROSSING).tile]
    assert archive.execute(recipe("All faults by code")).fetchall() == []


def test_all_faults_by_code(each_archive: Any) -> None:
    each_archive.executemany(INSERT, enumerate(it.tile for it in SAMPLES))
    told = each_archive.execute(recipe("All faults by code")).fetchall()
    faults = [[it.code for it in mvtgate.faults(sample.tile)] for sample in SAMPLES]
    codes = {it for its in faults for it in its}
    assert told == [(code, sum(its.count(code) for its in faults), sum(code in its for its in faults)) for code in sorted(codes)]


def test_the_program_sqlite3(extension: pathlib.Path, archive: Any, tmp_path: pathlib.Path) -> None:
    archive.executemany(INSERT, enumerate(gzip.compress(it.tile) for it in SAMPLES))
    archive.commit()
    command = re.search(r"^sqlite3 map\.mbtiles .*$", (FOLDER / "README.md").read_text(), re.MULTILINE)
    assert command
    said = command[0].replace("bindings/sqlite/out/mvtgate", str(extension.with_suffix("")))
    run = subprocess.run(["sh", "-ec", said], cwd=tmp_path, check=True, capture_output=True, text=True)
    assert run.stdout == f"{sum(not it.is_valid('polygon') for it in SAMPLES)}\n" and run.stderr == ""


def test_the_lines_of_embedding(extension: pathlib.Path, archive: Any, tmp_path: pathlib.Path) -> None:
    archive.executemany(INSERT, enumerate((gzip.compress(CROSSING), VALID)))
    archive.commit()
    shown = re.search(r"(?ms)^```sql\n(\.load .*?)^```$", (TOP / "docs/EMBEDDING.md").read_text())
    assert shown
    lines = shown[1].replace("bindings/sqlite/out/mvtgate", str(extension.with_suffix("")))
    tries = "".join(f"INSERT INTO tiles VALUES (0, 0, {row}, {tile});\n" for row, tile in enumerate(("NULL", "x'ff'", f"x'{VALID.hex()}'"), 2))
    run = subprocess.run(["sqlite3", "map.mbtiles"], input=lines + tries, cwd=tmp_path, capture_output=True, text=True)
    assert run.stdout == f"0|0|0|{mvtgate.explain(sure(mvtgate.check(CROSSING)))}\n" and run.stderr.count("the tile is not valid") == 2
    assert archive.execute("SELECT tile_row FROM tiles ORDER BY 1").fetchall() == [(0,), (1,), (4,)]


def sure(fault: Optional[mvtgate.Fault]) -> mvtgate.Fault:
    """The fault, which is there."""
    assert fault
    return fault


def test_nothing_else_is_exported(extension: pathlib.Path) -> None:
    listed = subprocess.run(["nm", "--dynamic", "--defined-only", extension], check=True, capture_output=True, text=True)
    assert [line.split()[-1] for line in listed.stdout.splitlines()] == ["sqlite3_mvtgate_init"]
