"""docs/POSTGIS.md: its lines run on the example's tables, and its table of what SQL mends is what is measured here."""
from __future__ import annotations

import contextlib
import os
import pathlib
import re
import subprocess
import sys
import tempfile
from typing import Any, Dict, Iterator, List, Tuple

import mvtgate
import psycopg2  # type: ignore[import]
import pytest
from mvtgate import Profile

import shapes
from running import POSTGRESQL, SECONDS, TOP, Database, map_database

DOCUMENT = (TOP / "docs/POSTGIS.md").read_text()
BLOCKS: List[Tuple[str, str]] = re.findall(r"(?ms)^```(\w+)\n(.*?)^```$", DOCUMENT)
# a row of the table that begins with SQL: the SQL, and a cell for each kind
ROWS: List[Tuple[str, str]] = re.findall(r"(?m)^\| `([^`]+)` \| (.*) \|$", DOCUMENT)
# (the columns of the table)
KINDS = [it for it in shapes.KINDS if not it.startswith("islands")]
COUNT = 50
# each shape alone in the tile 6/20/20
SHAPES = """
CREATE TABLE shapes (id serial PRIMARY KEY, kind text, geom geometry(Geometry, 3857));
CREATE VIEW grids AS SELECT tile, (ST_XMax(tile) - ST_XMin(tile)) / 4096 AS unit FROM ST_TileEnvelope(6, 20, 20) AS tile
"""
INSERT = """
INSERT INTO shapes (kind, geom)
SELECT %s, ST_SetSRID(ST_Affine({shape}, unit, 0, 0, -unit, ST_XMin(tile), ST_YMax(tile)), 3857) FROM grids
"""
TILES = """
SELECT (SELECT ST_AsMVT(its, 'lakes', {extent}, 'geom') FROM (SELECT {geometry} AS geom) AS its)
FROM shapes, grids WHERE kind = %s ORDER BY id
"""


@pytest.fixture(scope="module")
def filled() -> Iterator[Database]:
    """A database of its own."""
    with map_database() as database:
        with contextlib.closing(psycopg2.connect(database.dsn)) as connection, connection, connection.cursor() as cursor:
            cursor.execute(SHAPES)
            for kind in KINDS:
                for shape in shapes.shapes_of(kind, COUNT):
                    cursor.execute(INSERT.format(shape=shape), [kind])
        yield database


def faulty(tiles: List[bytes], profile: Profile) -> int:
    """How many tiles have a fault."""
    return sum(mvtgate.check(it, profile) is not None for it in tiles)


def tiles_of(cursor: Any, geometry: str, kind: str) -> List[bytes]:
    """The tiles of a kind's shapes, where they are brought to the grid like this."""
    extent = re.search(r"tile, ([0-9]+)", geometry)
    cursor.execute(TILES.format(geometry=geometry, extent=extent[1] if extent else 4096), [kind])
    return [bytes(tile) for tile, in cursor]


@pytest.mark.parametrize("geometry, told", ROWS, ids=[it for it, _ in ROWS])
def test_what_sql_mends(filled: Database, geometry: str, told: str) -> None:
    with filled.transaction() as cursor:
        tiles = {kind: tiles_of(cursor, geometry, kind) for kind in KINDS}
    assert all(len(it) == COUNT for it in tiles.values())
    assert " | ".join(f"{faulty(it, Profile.POLYGON)}, {faulty(it, Profile.FEATURE)}" for it in tiles.values()) == told


def test_mend_mends_all(filled: Database) -> None:
    assert re.search(r"(?m)^\| the first, then `mvtgate.mend` \| " + " \\| ".join(["0, 0"] * len(KINDS)) + r" \|$", DOCUMENT)
    geometry, _ = ROWS[0]
    with filled.transaction() as cursor:
        for profile in Profile:
            tiles = [mvtgate.mend(it, profile).tile for kind in KINDS for it in tiles_of(cursor, geometry, kind)]
            assert len(tiles) == COUNT * len(KINDS) and faulty(tiles, profile) == 0


def test_make_valid_after_rounding_finds_nothing_to_do(filled: Database) -> None:
    with filled.transaction() as cursor:
        for kind in KINDS:
            before, after = (tiles_of(cursor, it, kind) for it in (ROWS[0][0], f"ST_MakeValid({ROWS[0][0]})"))
            assert len(before) == COUNT and before == after


def test_structure_after_rounding_winds_rings_the_other_way_round(filled: Database) -> None:
    (geometry,) = [it for it, _ in ROWS if it.startswith("ST_MakeValid(") and "structure" in it]
    with filled.transaction() as cursor:
        faults = [mvtgate.check(it) for kind in KINDS for it in tiles_of(cursor, geometry, kind)]
    assert {it and it.code for it in faults} == {503}


def test_precision_of_valid_shapes_alone_is_reduced(filled: Database) -> None:
    with filled.transaction() as cursor, pytest.raises(psycopg2.Error, match="TopologyException"):
        for kind in KINDS:
            tiles_of(cursor, "ST_AsMVTGeom(ST_ReducePrecision(geom, unit), tile)", kind)


def test_function_of_the_document(filled: Database) -> None:
    """Whatever tile of the table it gets, it hands back a valid one."""
    (lines,) = [lines for language, lines in BLOCKS if language == "python"]
    named: Dict[str, Any] = {}
    exec(lines, named)
    with filled.transaction() as cursor:
        tiles = [it for kind in KINDS for it in tiles_of(cursor, ROWS[0][0], kind)]
    assert faulty(tiles, Profile.POLYGON) and not faulty([named["valid"](it) for it in tiles], Profile.POLYGON)


@pytest.fixture(scope="module")
def folder() -> Iterator[pathlib.Path]:
    """Where the lines for a shell run, with the commands of Debian's packages."""
    with tempfile.TemporaryDirectory(prefix="tile_server.") as made:
        for name, command in {"python3": sys.executable, "psql": str(POSTGRESQL / "psql")}.items():
            path = pathlib.Path(made) / name
            path.write_text(f'#!/bin/sh\nexec {command} "$@"\n')
            path.chmod(0o755)
        yield pathlib.Path(made)


def environment(database: Database, folder: pathlib.Path) -> Dict[str, str]:
    """That of a shell which is set up for the database."""
    settings = dict(it.split("=") for it in database.dsn.split())
    named = {"PGHOST": settings["host"], "PGUSER": settings["user"], "PGDATABASE": settings["dbname"]}
    named["PGOPTIONS"] = "-c client_min_messages=warning"
    return {**os.environ, **named, "PATH": f"{folder}:{os.environ['PATH']}", "PYTHONPATH": f"{TOP}/bindings/python/src"}


SHELLS = {"sql": ["psql", "-Atq", "-v", "ON_ERROR_STOP=1"], "sh": ["bash", "-euo", "pipefail"], "python": ["python3"]}


def output_of(language: str, lines: str, folder: pathlib.Path, settings: Dict[str, str]) -> str:
    """What lines of the document write."""
    words = ["env", *SHELLS[language]]
    run = subprocess.run(words, input=lines, env=settings, cwd=folder, capture_output=True, text=True, timeout=5 * SECONDS)
    assert (run.returncode, run.stderr) == (0, ""), lines
    return run.stdout


def test_lines_run(filled: Database, folder: pathlib.Path) -> None:
    """Each block of the document runs after those before it, and a block of text is what the one before it writes."""
    settings, written, told = environment(filled, folder), "", 0
    for language, lines in BLOCKS:
        if language == "text":
            assert written == lines
            told += 1
        else:
            written = output_of(language, lines, folder, settings)
    assert told
