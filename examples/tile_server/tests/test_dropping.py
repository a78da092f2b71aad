"""--drop: features that can't be mended are left out. What ST_AsMVTGeom makes can be mended, so the database here has a function of
that name of its own, which brings shapes to the grid as many a query does by hand: scaled, with a half added, since ST_AsMVT cuts
fractions off."""
from __future__ import annotations

import contextlib
import json
from typing import Iterator

import mvtgate
import psycopg2  # type: ignore[import]
import pytest

from conftest import FIRST, GZIP, TWO_NAMES, expect_refusal, expect_told, judged, samples
from running import Database, Reply, Server, map_database, path_of, tile_server

MENDED, DROPPED, FAULT = "X-Tile-Mended", "X-Tile-Dropped", "X-Tile-Fault"
BY_HAND = """
CREATE SCHEMA by_hand;
CREATE FUNCTION by_hand.ST_AsMVTGeom(shape geometry, tile geometry, extent integer, buffer integer, clips boolean) RETURNS geometry
LANGUAGE sql IMMUTABLE AS $$
    SELECT ST_Affine(shape, 1 / unit, 0, 0, -1 / unit, 0.5 - ST_XMin(tile) / unit, 0.5 + ST_YMax(tile) / unit)
    FROM (SELECT (ST_XMax(tile) - ST_XMin(tile)) / extent AS unit) AS its
$$;
ALTER DATABASE map SET search_path = by_hand, public;
"""
# in a tile: a field, a strip of no width, and two ponds with one corner; in another one 25 such strips
SHAPES = """
INSERT INTO areas (id, name, geometry)
SELECT id, name, ST_Multi(ST_SetSRID(ST_Affine(ST_GeomFromText(shape), unit, 0, 0, -unit, ST_XMin(tile), ST_YMax(tile)), 3857))
FROM (VALUES
    (1, 0, 'a field', 'POLYGON((2000 100, 3000 100, 3000 1000, 2000 1000, 2000 100))'),
    (2, 0, 'a strip', 'POLYGON((100 2000, 200 2000, 300 2000, 100 2000))'),
    (3, 0, 'two ponds with one corner',
     'POLYGON((100 100, 1000 100, 1000 1000, 100 1000, 100 100), (200 200, 200 400, 400 400, 400 200, 200 200),
              (400 400, 400 600, 600 600, 600 400, 400 400))')) AS rows (id, tile_column, name, shape),
    LATERAL (SELECT ST_TileEnvelope(6, tile_column, 40) AS tile) AS tiles,
    LATERAL (SELECT (ST_XMax(tile) - ST_XMin(tile)) / 4096 AS unit) AS units;
INSERT INTO areas (id, name, geometry)
SELECT 500 + it, 'a strip', ST_Translate(geometry, ST_XMin(ST_TileEnvelope(6, 1, 40)) - ST_XMin(ST_TileEnvelope(6, 0, 40)), 0)
FROM areas, generate_series(0, 24) AS it WHERE id = 2;
"""
FEW, MANY = 0, 1


@pytest.fixture(scope="module")
def by_hand() -> Iterator[Database]:
    """A database of its own."""
    with map_database() as database:
        with contextlib.closing(psycopg2.connect(database.dsn)) as connection, connection, connection.cursor() as cursor:
            cursor.execute(BY_HAND + SHAPES)
        yield database


@pytest.fixture(scope="module")
def mending(by_hand: Database) -> Iterator[Server]:
    """The server that mends what it can."""
    with tile_server(by_hand.dsn, "--mend") as running:
        yield running


@pytest.fixture(scope="module")
def dropping(by_hand: Database) -> Iterator[Server]:
    """The server that drops the rest."""
    with tile_server(by_hand.dsn, "--mend", "--drop") as running:
        yield running


def asked(server: Server, column: int) -> Reply:
    """The answer on a tile of this database."""
    return server.get(path_of(column, row=40), GZIP)


def test_feature_that_cannot_be_mended(mending: Server) -> None:
    answer = asked(mending, FEW)
    assert (answer.status, answer.headers["Cache-Control"]) == (500, "no-store") and MENDED not in answer.headers
    # (a ring without an area)
    assert (answer.json()["code"], answer.json()["row"]) == (502, {"layer": "areas", "id": 2})
    assert f" ERROR tile 6/{FEW}/40 refused: areas 2: 502: " in mending.log()


def test_feature_is_dropped(dropping: Server) -> None:
    answer = asked(dropping, FEW)
    features = judged(answer)["areas"]["features"]
    assert [it["id"] for it in features] == [1, 3]
    assert (answer.headers[MENDED], answer.headers[DROPPED]) == ("1", "areas 2") and FAULT not in answer.headers
    (line,) = [it for it in dropping.log().splitlines() if f" tile 6/{FEW}/40 " in it]
    dropped, mended = json.loads(line.partition(" WARNING tile 6/0/40 mended: ")[2])
    assert dropped == {"layer": "areas", "id": 2, "what": "dropped"}
    assert (mended["id"], mended["what"]) == (3, "mended") and mended["area"][0] == 900 * 900 - 2 * 200 * 200
    head = dropping.get(path_of(FEW, row=40), {**GZIP, "If-None-Match": answer.headers["Etag"]}, method="HEAD")
    assert (head.status, head.headers[MENDED], head.headers[DROPPED]) == (304, "1", "areas 2")


def test_many_that_are_dropped(dropping: Server) -> None:
    """A header is bounded, and the log has them all."""
    answer = asked(dropping, MANY)
    assert judged(answer)["areas"]["features"] == [] and answer.headers[MENDED] == "0"
    assert answer.headers[DROPPED] == ", ".join([*(f"areas {it}" for it in range(500, 520)), "5 more"])
    (line,) = [it for it in dropping.log().splitlines() if f" tile 6/{MANY}/40 " in it]
    assert [it["id"] for it in json.loads(line.partition(" mended: ")[2])] == [*range(500, 525)]


def test_dropped_features_are_counted(by_hand: Database) -> None:
    with tile_server(by_hand.dsn, "--mend", "--drop") as running:
        assert [asked(running, it).status for it in (FEW, MANY)] == [200, 200]
        wanted = {("areas", "dropped", "6"): 26.0, ("areas", "mended", "6"): 1.0}
        assert samples(running, "tile_server_changed_features_total") == wanted
        assert samples(running, "tile_server_mended_total") == {("6",): 2}
        # (of a feature that was left out no area is told)
        assert samples(running, "tile_server_area_change_count") == {("areas",): 1}


def test_fault_that_is_not_of_polygons_is_refused_all_the_same(dropping: Server) -> None:
    told = expect_refusal(dropping.get(path_of(TWO_NAMES)), TWO_NAMES)
    expect_told(told, FIRST[TWO_NAMES])


def test_only_reports_what_cannot_be_mended(by_hand: Database) -> None:
    with tile_server(by_hand.dsn, "--mend", "--report-only") as running, tile_server(by_hand.dsn, "--no-gate") as ungated:
        answer = asked(running, FEW)
        assert (answer.status, answer.body) == (200, asked(ungated, FEW).body) and MENDED not in answer.headers
        assert mvtgate.Fault.from_text(answer.headers[FAULT]).code == 502
        assert f" WARNING tile 6/{FEW}/40 sent all the same: areas 2: 502: " in running.log()
    with tile_server(by_hand.dsn, "--mend", "--drop", "--report-only") as running:
        answer = asked(running, FEW)
        assert judged(answer) and answer.headers[DROPPED] == "areas 2" and FAULT not in answer.headers
