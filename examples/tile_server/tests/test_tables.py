"""--mend over tables of kinds of which PostGIS makes faulty tiles: no tile is refused any more, by either profile."""
from __future__ import annotations

import contextlib
from typing import Iterator

import mvtgate
import psycopg2  # type: ignore[import]
import pytest
from mvtgate import Profile

from conftest import GZIP, judged, without_rings
from running import Database, Server, map_database, path_of, tile_server
from shapes import KINDS, shapes_of

# each kind has tiles in a row of zoom 6, each with some of its shapes; between them are others, into which shapes may reach
ROWS = {kind: 30 + 2 * it for it, kind in enumerate(KINDS)}
COLUMNS, SHAPES = range(0, 24, 2), 5
NAMES = {Profile.POLYGON: "polygon", Profile.FEATURE: "feature"}
INSERT = """
WITH tiles AS (SELECT ST_TileEnvelope(6, %(column)s, %(row)s) AS tile),
     units AS (SELECT tile, (ST_XMax(tile) - ST_XMin(tile)) / 4096 AS unit FROM tiles)
INSERT INTO areas (id, name, geometry)
SELECT %(id)s, %(name)s, ST_Multi(ST_CollectionExtract(ST_SetSRID(
    ST_Affine({shape}, unit, 0, 0, -unit, ST_XMin(tile), ST_YMax(tile)), 3857), 3)) FROM units
"""


def fill(database: Database) -> None:
    """Adds the shapes to the areas."""
    with contextlib.closing(psycopg2.connect(database.dsn)) as connection, connection, connection.cursor() as cursor:
        for kind, row in ROWS.items():
            for number, shape in enumerate(shapes_of(kind, len(COLUMNS) * SHAPES)):
                words = {"column": COLUMNS[number // SHAPES], "row": row, "id": 1000 * row + number, "name": kind}
                cursor.execute(INSERT.format(shape=shape), words)


@pytest.fixture(scope="module")
def filled() -> Iterator[Database]:
    """A database of its own."""
    with map_database() as database:
        fill(database)
        yield database


@pytest.fixture(scope="module")
def ungated(filled: Database) -> Iterator[Server]:
    """The server without a gate."""
    with tile_server(filled.dsn, "--no-gate") as running:
        yield running


@pytest.fixture(scope="module", params=list(Profile), ids=lambda it: NAMES[it])
def profile(request: pytest.FixtureRequest) -> Profile:
    """Each of the two."""
    taken: Profile = request.param
    return taken


@pytest.fixture(scope="module")
def mending(filled: Database, profile: Profile) -> Iterator[Server]:
    """The server that mends by it."""
    with tile_server(filled.dsn, "--mend", "--profile", NAMES[profile]) as running:
        yield running


@pytest.mark.parametrize("kind, row", ROWS.items(), ids=list(ROWS))
def test_no_tile_is_refused(mending: Server, ungated: Server, profile: Profile, kind: str, row: int) -> None:
    refused = 0
    for column in COLUMNS:
        faulty = ungated.get(path_of(column, row=row)).body
        faults = mvtgate.faults(faulty, profile)
        (old,), answer = mvtgate.dump(faulty)["layers"], mending.get(path_of(column, row=row), GZIP)
        new = judged(answer, profile)["areas"]
        assert len(old["features"]) == SHAPES
        assert answer.headers.get("X-Tile-Mended") == (str(len(faults)) if faults else None)
        assert "X-Tile-Dropped" not in answer.headers and "X-Tile-Fault" not in answer.headers
        changed = {it.feature for it in faults if it.feature is not None}
        assert without_rings(new, changed) == without_rings(old, changed)
        refused += bool(faults)
    # (by `polygon` two that overlap are left apart by PostGIS)
    assert refused or (kind.startswith("two") and profile is Profile.POLYGON)
