"""Tiles that pass: what is sent, in which encoding, with which headers, and what is sent in place of a tile that is none."""
from __future__ import annotations

import contextlib
import gzip
from typing import Dict

import psycopg2  # type: ignore[import]
import pytest

from conftest import FIELD, GARDEN, GZIP, MILESTONES, NOTHING, PLACES, PLAIN, PONDS, judged, rectangle, rings_of, tags_of
from running import Database, Server, path_of


def test_field(server: Server) -> None:
    layers = judged(server.get(path_of(FIELD), GZIP))
    assert set(layers) == {"areas", "places"} and {it["extent"] for it in layers.values()} == {4096}
    (field,), (well,) = layers["areas"]["features"], layers["places"]["features"]
    assert (field["id"], field["type"], well["id"], well["type"]) == (100, 3, 1, 1)
    assert rings_of(field) == [rectangle(100, 100, 1000, 1000), rectangle(300, 300, 500, 500)]
    # (a MoveTo, and 700 in zigzag form twice)
    assert well["geometry"] == [9, 1400, 1400]
    assert tags_of(layers["areas"], 0) == {"name": "a field", "crop": "oats", "hectares": 81}
    assert tags_of(layers["places"], 0) == {"name": "a well"}


@pytest.mark.parametrize("table, column", [("areas", PONDS), ("places", PLACES), ("areas", FIELD)])
def test_all_rows_are_there(server: Server, database: Database, table: str, column: int) -> None:
    rows = database.number(f"SELECT count(*) FROM {table} WHERE ST_Within(geometry, ST_TileEnvelope(6, %s, 20))", column)
    layers = judged(server.get(path_of(column), GZIP))
    features = layers[table]["features"]
    assert rows > 0 and len(features) == rows
    assert len({it["id"] for it in features}) == rows


def test_what_lies_beyond_the_side(server: Server) -> None:
    # (1/64 of the side, which is 64 units, is drawn beyond it)
    (milestone,) = judged(server.get(path_of(MILESTONES)))["places"]["features"]
    assert (milestone["id"], milestone["geometry"]) == (2, [9, 2 * 4150, 1400])
    neighbours = judged(server.get(path_of(MILESTONES + 1)))["places"]["features"]
    assert [(it["id"], it["geometry"]) for it in neighbours] == [(2, [9, 2 * 54, 1400]), (3, [9, 2 * 74, 1400])]


def test_ponds_have_islands(server: Server) -> None:
    features = judged(server.get(path_of(PONDS), GZIP))["areas"]["features"]
    assert len(features) == 1600 and {len(rings_of(it)) for it in features} == {2}


@pytest.mark.parametrize(
    "said, is_gzip",
    [
        ("gzip", True),
        ("deflate, GZIP;q=0.5, br", True),
        ("*", True),
        ("br;q=1.0, *;q=0.1", True),
        ("gzip;q=1, *;q=0", True),
        ("identity", False),
        ("br", False),
        ("gzip;q=0", False),
        ("gzip; q=0.000, *", False),
        ("*;q=0", False),
        ("gzip;q=much", False),
        ("", False),
    ],
)
def test_encodings(server: Server, said: str, is_gzip: bool) -> None:
    plain = server.get(path_of(FIELD))
    packed = server.get(path_of(FIELD), GZIP)
    assert "Content-Encoding" not in plain.headers and packed.headers["Content-Encoding"] == "gzip"
    assert gzip.decompress(packed.body) == plain.body
    assert plain.headers["Vary"] == packed.headers["Vary"] == "Accept-Encoding"
    answer, same = server.get(path_of(FIELD), {"Accept-Encoding": said}), packed if is_gzip else plain
    assert (answer.status, answer.body, answer.headers["Etag"]) == (200, same.body, same.headers["Etag"])
    assert answer.headers.get("Content-Encoding") == ("gzip" if is_gzip else None)


def test_tags_of_encodings_differ(server: Server) -> None:
    tags = {server.get(path_of(column), said).headers["Etag"] for column in (FIELD, PONDS) for said in (PLAIN, GZIP)}
    assert len(tags) == 4
    assert all(it.startswith('"') and it.endswith('"') for it in tags)


def test_what_a_client_has_is_not_sent_again(server: Server) -> None:
    first = server.get(path_of(FIELD), GZIP)
    tag = first.headers["Etag"]
    for known in (tag, f"W/{tag}", f'"other", {tag}', "*"):
        answer = server.get(path_of(FIELD), {**GZIP, "If-None-Match": known})
        assert (answer.status, answer.body) == (304, b""), known
        assert (answer.headers["Etag"], answer.headers["Cache-Control"]) == (tag, "public, max-age=300")
        assert answer.headers["Vary"] == "Accept-Encoding"
    # (the tag of the one encoding says nothing of the other)
    for headers in ({**GZIP, "If-None-Match": '"other"'}, {"If-None-Match": tag}):
        assert judged(server.get(path_of(FIELD), headers))


def test_another_tile_has_another_tag(server: Server, database: Database) -> None:
    def rename(name: str) -> None:
        with contextlib.closing(psycopg2.connect(database.dsn)) as connection, connection, connection.cursor() as cursor:
            cursor.execute("UPDATE places SET name = %s WHERE id = 1", [name])

    before = server.get(path_of(FIELD))
    rename("a spring")
    try:
        now = server.get(path_of(FIELD), {"If-None-Match": before.headers["Etag"]})
        assert tags_of(judged(now)["places"], 0) == {"name": "a spring"}
        assert now.headers["Etag"] != before.headers["Etag"]
    finally:
        rename("a well")
    assert server.get(path_of(FIELD)).headers["Etag"] == before.headers["Etag"]


@pytest.mark.parametrize("column", [GARDEN, NOTHING])
@pytest.mark.parametrize("headers", [PLAIN, GZIP, {"If-None-Match": "*"}])
def test_tile_without_features(server: Server, column: int, headers: Dict[str, str]) -> None:
    answer = server.get(path_of(column), headers)
    assert (answer.status, answer.body) == (204, b"")
    assert answer.headers["Cache-Control"] == "public, max-age=300"
    assert "Content-Encoding" not in answer.headers


@pytest.mark.parametrize("zoom, column, row", [(6, 64, 20), (6, 0, 64), (0, 1, 0), (0, 0, 1), (23, 0, 0), (6, 10**9, 20)])
def test_addresses_that_are_no_tile(server: Server, zoom: int, column: int, row: int) -> None:
    answer = server.get(path_of(column, zoom, row))
    assert answer.status == 404
    assert answer.json() == {"error": "there is no such tile", "tile": {"z": zoom, "x": column, "y": row}}


def test_greatest_addresses(server: Server) -> None:
    last = 2**22 - 1
    assert [server.get(path_of(it, 22, it)).status for it in (last, last + 1)] == [204, 404]
    assert server.get(path_of(0, 0, 0)).status in (200, 500)


@pytest.mark.parametrize("path", ["6/a/20.mvt", "6/-1/20.mvt", "06/0/20.mvt", "6/0/20", "6/0/20.png", "6/0.mvt", "6/0/1e1.mvt", ""])
def test_paths_that_are_no_address(server: Server, path: str) -> None:
    assert server.get(f"/tiles/{path}").status == 404


def test_head(server: Server) -> None:
    for column, headers in ((FIELD, PLAIN), (FIELD, GZIP), (PONDS, GZIP), (NOTHING, PLAIN)):
        full, head = server.get(path_of(column), headers), server.get(path_of(column), headers, method="HEAD")
        assert (head.status, head.body) == (full.status, b"")
        wanted = {key: it for key, it in full.headers.items() if key != "Date"}
        assert {key: it for key, it in head.headers.items() if key != "Date"} == wanted


def test_other_methods(server: Server) -> None:
    answer = server.get(path_of(FIELD), method="POST")
    assert (answer.status, answer.headers["Allow"]) == (405, "GET,HEAD,OPTIONS")
