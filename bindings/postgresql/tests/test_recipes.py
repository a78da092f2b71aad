"""The recipes of README.md, as they stand there, over PostGIS."""
from __future__ import annotations

import re
from typing import Any

import psycopg2  # type: ignore[import]
import pytest

import mvtgate
from installation import EXTENSION
from samples import TOP

VALID, CROSSING = ((TOP / "tiles" / name).read_bytes() for name in ("point.mvt", "crossing_edges.mvt"))
# the columns of the tiles 6/COLUMN/20 of examples/tile_server/tables.sql, and those whose area breaks a rule of polygons
COLUMNS = range(10)
FAULTY = {1: 111, 2: 120, 3: 130, 4: 140}


def recipe(heading: str) -> str:
    """The statement below a heading."""
    text = (EXTENSION / "README.md").read_text()
    found = re.search(r"(?ms)^```sql\n(.*?)^```$", text[text.index(f"### {heading}\n") :])
    assert found
    return found[1]


@pytest.fixture
def areas(cursor: Any) -> Any:
    """A cursor of a database with PostGIS and the tables of the example."""
    cursor.execute((TOP / "examples/tile_server/tables.sql").read_text())
    return cursor


def test_a_table_of_valid_tiles_alone(cursor: Any) -> None:
    cursor.execute(recipe("A table of valid tiles alone"))
    insert = "INSERT INTO tiles VALUES (0, 0, %s, %s)"
    cursor.execute(insert, (0, VALID))
    for row, tile in ((1, CROSSING), (2, b""), (3, b"\x1f\x8b\x08\x00")):
        with pytest.raises(psycopg2.errors.CheckViolation):
            cursor.execute(insert, (row, tile))
    with pytest.raises(psycopg2.errors.CheckViolation):
        cursor.execute("UPDATE tiles SET tile = %s", (CROSSING,))
    cursor.execute("INSERT INTO tiles SELECT 0, 0, 4, mvt_mend(%s)", (CROSSING,))
    cursor.execute("SELECT y FROM tiles ORDER BY y")
    assert cursor.fetchall() == [(0,), (4,)]


def unmended(areas: Any) -> None:
    """The table drafts, of what the recipe's function makes without mending."""
    made = recipe("A tile function that mends").replace("area_tile", "draft_tile").replace("mvt_mend(", "(").replace(", drop => true)", ")")
    areas.execute(made)
    areas.execute(
        "CREATE TABLE drafts AS SELECT 6 AS z, x, 20 AS y, draft_tile(6, x, 20) AS tile FROM generate_series(%s, %s) AS x",
        (COLUMNS[0], COLUMNS[-1]),
    )


def test_a_tile_function_that_mends(areas: Any) -> None:
    unmended(areas)
    areas.execute(recipe("A tile function that mends"))
    areas.execute("SELECT x, tile, area_tile(z, x, y) FROM drafts")
    tiles = {x: (bytes(draft), bytes(mended)) for x, draft, mended in areas.fetchall()}
    assert {x for x, (draft, _) in tiles.items() if mvtgate.check(draft)} == set(FAULTY)
    for x, (draft, mended) in tiles.items():
        assert mvtgate.check(mended) is None, x
        assert (mended == draft) == (x not in FAULTY), x


def test_the_rows_behind_the_faults_of_a_zoom(areas: Any) -> None:
    unmended(areas)
    areas.execute("INSERT INTO drafts SELECT 5, x, y, tile FROM drafts")
    areas.execute(recipe("The rows behind the faults of a zoom"))
    rows = areas.fetchall()
    assert {(x, id) for x, _, _, id, _ in rows} == set(FAULTY.items())
    areas.execute("SELECT x, tile FROM drafts WHERE z = 6")
    codes = {x: [str(it.code) for it in mvtgate.faults(bytes(tile))] for x, tile in areas.fetchall()}
    assert sorted((x, code) for x, _, code, _, _ in rows) == sorted((x, code) for x, its in codes.items() for code in its)
    areas.execute("SELECT id, name FROM areas WHERE id = ANY (%s)", (list(FAULTY.values()),))
    assert {(id, name) for _, _, _, id, name in rows} == set(areas.fetchall())


def test_the_first_lines_of_the_document(cursor: Any) -> None:
    cursor.execute("CREATE TABLE tiles AS SELECT unnest(%s::bytea[]) AS tile", ([VALID, CROSSING],))
    text = (EXTENSION / "README.md").read_text()
    found = re.search(r"(?ms)^```sql\nCREATE EXTENSION mvtgate;[^\n]*\n\n(.*?)^```$", text)
    assert found
    cursor.execute(found[1])
    cursor.execute("SELECT bool_and(mvt_is_valid(tile)) FROM tiles")
    assert cursor.fetchone() == (True,)


def test_the_lines_of_embedding(areas: Any) -> None:
    text = (TOP / "docs/EMBEDDING.md").read_text()
    found = re.search(r"(?ms)^```sql\nCREATE EXTENSION mvtgate;\n(.*?;\n)(SELECT mvt_mend.*?;)[^\n]*\n(SELECT .*?;)\n```$", text)
    assert found
    unmended(areas)
    envelope = "ST_TileEnvelope(6, 1, 20)"
    areas.execute(f"CREATE TABLE rows AS SELECT id, name, ST_AsMVTGeom(geometry, {envelope}) AS shape FROM areas WHERE geometry && {envelope}")
    areas.execute(found[1])
    areas.execute("INSERT INTO tiles VALUES (0, 0, 0, %s)", (VALID,))
    with pytest.raises(psycopg2.errors.CheckViolation):
        areas.execute("INSERT INTO tiles VALUES (0, 0, 1, %s)", (CROSSING,))
    areas.execute(found[2])
    assert mvtgate.check(bytes(areas.fetchone()[0])) is None
    areas.execute(found[3])
    assert {(z, x, y) for z, x, y, _ in areas.fetchall()} == {(6, x, 20) for x in FAULTY}
