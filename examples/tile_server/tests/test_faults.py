"""Tiles that don't pass: what is answered, logged and kept."""
from __future__ import annotations

import json
import pathlib
import socket
import subprocess
import sys
from fractions import Fraction
from typing import Dict, Iterator, List

import mvtgate
import pytest
from mvtgate import Fault, Profile

from conftest import (
    CLOSE_PONDS,
    COMMON_CORNER,
    FIELD,
    FIRST,
    GZIP,
    LOOP,
    NECK,
    OVERLAP,
    PONDS,
    ROW,
    TWO_CORNERS,
    Expected,
    expect_refusal,
    expect_told,
    judged,
    lines_of,
    rings_of,
)
from running import Database, Server, path_of, tile_server
from tile_server.gate import Gate

FIRST_BY_FEATURE: Dict[int, Expected] = {
    # (the fault is reported for the later polygon)
    NECK: (504, "layer 0, feature 0, polygon 1", (500, 500)),
    TWO_CORNERS: (504, "layer 0, feature 0, polygon 1", (500, 500)),
}


@pytest.fixture(scope="module")
def by_feature(database: Database) -> Iterator[Server]:
    """The server by the profile `feature`."""
    with tile_server(database.dsn, "--profile", "feature") as running:
        yield running


@pytest.mark.parametrize("column", FIRST)
def test_faulty_tile(server: Server, kept: pathlib.Path, column: int) -> None:
    before = len(lines_of(server, column))
    answer = server.get(path_of(column), {**GZIP, "If-None-Match": "*"})
    fault = expect_told(expect_refusal(answer, column), FIRST[column])
    assert answer.json()["row"] == {"layer": "areas", "id": ROW[column]}
    (line,) = lines_of(server, column)[before:]
    assert f" ERROR tile 6/{column}/20 refused: areas {ROW[column]}: {fault.code}: " in line and line.endswith(f" {fault.text}")
    # what is kept shows the fault to the separate checker
    tile = (kept / f"6-{column}-20.mvt").read_bytes()
    assert mvtgate.confirm(tile, (kept / f"6-{column}-20.json").read_text())
    assert (kept / f"6-{column}-20.json").read_text() == fault.text


def test_each_request_is_judged_anew(server: Server) -> None:
    before = len(lines_of(server, CLOSE_PONDS))
    assert [server.get(path_of(CLOSE_PONDS)).status for _ in range(3)] == [500] * 3
    assert len(lines_of(server, CLOSE_PONDS)) == before + 3
    head = server.get(path_of(CLOSE_PONDS), method="HEAD")
    assert (head.status, head.body, head.headers["Cache-Control"]) == (500, b"", "no-store")


def test_valid_tiles_are_not_kept(server: Server, kept: pathlib.Path) -> None:
    judged(server.get(path_of(FIELD)))
    server.get(path_of(LOOP))
    names = {it.name for it in kept.iterdir()}
    assert "6-4-20.mvt" in names and not any(it.startswith(f"6-{FIELD}-") for it in names)
    assert all(it.endswith((".mvt", ".json")) for it in names)


@pytest.mark.parametrize("column", [NECK, OVERLAP, TWO_CORNERS])
def test_touching_polygons_pass_by_polygon(server: Server, column: int) -> None:
    layer = judged(server.get(path_of(column)))["areas"]
    assert len(rings_of(layer["features"][0])) == 2


@pytest.mark.parametrize("column", [NECK, OVERLAP, TWO_CORNERS])
def test_touching_polygons_by_feature(by_feature: Server, column: int) -> None:
    told = expect_refusal(by_feature.get(path_of(column)), column)
    if column in FIRST_BY_FEATURE:
        expect_told(told, FIRST_BY_FEATURE[column])
    else:
        # (the two parts touch at two points, of which either may be reported)
        fault = Fault.from_text(json.dumps(told["fault"]))
        assert fault.code == 504 and fault.point in [(Fraction(300), Fraction(500)), (Fraction(500), Fraction(300))]


@pytest.mark.parametrize("column", [FIELD, PONDS])
def test_valid_tile_by_feature(by_feature: Server, column: int) -> None:
    assert judged(by_feature.get(path_of(column), GZIP), Profile.FEATURE)


@pytest.mark.parametrize("is_exact, code", [(False, 504), (True, 507)])
def test_exact_verdict_by_feature(is_exact: bool, code: int) -> None:
    """Of two squares that overlap, which PostGIS doesn't make, the first fault is a vertex in the other one, and the quick one where edges meet."""
    numbers = b"\x09\x00\x00\x1a\x14\x00\x00\x14\x13\x00\x0f\x09\x0a\x09\x1a\x14\x00\x00\x14\x13\x00\x0f"
    feature = b"\x12\x1a\x18\x03\x22\x16" + numbers
    reason = Gate(Profile.FEATURE, 1000, is_exact).judged(b"\x1a\x21\x78\x02\x0a\x01a" + feature)
    assert isinstance(reason, Fault) and reason.code == code


def test_tile_that_is_too_long(database: Database) -> None:
    with tile_server(database.dsn, "--max-bytes", "1000", "--mend", "--drop") as running:
        told = expect_refusal(running.get(path_of(PONDS), GZIP), PONDS)
        assert told["title"] == "Tile too long" and told["explanation"][0].endswith("bytes, and 1000 are the limit")
        assert f" ERROR tile 6/{PONDS}/20 refused: the tile has " in running.log()
        assert judged(running.get(path_of(FIELD), GZIP))


def test_without_the_gate_all_is_sent(ungated: Server) -> None:
    answer = ungated.get(path_of(COMMON_CORNER))
    assert answer.status == 200
    fault = mvtgate.check(answer.body)
    assert fault is not None and fault.code == 504


@pytest.mark.parametrize(
    "words, told",
    [
        (["--no-gate", "--mend"], "--mend is for a tile that was judged: not with --no-gate"),
        (["--no-gate", "--report-only"], "not with --no-gate"),
        (["--no-gate", "--exact"], "not with --no-gate"),
        (["--no-gate", "--keep", "/nowhere"], "not with --no-gate"),
        (["--drop"], "only with --mend"),
        (["--drop", "--report-only"], "only with --mend"),
        (["--repair"], "unrecognized arguments"),
        (["--query-seconds", "0"], "--query-seconds: 0 is not from 0.001 to 86400"),
        (["--port", "65536"], "--port: 65536 is not from 0 to 65535"),
        (["--workers", "0"], "--workers: 0 is not from 1 to 1000"),
        (["--max-age", "-1"], "--max-age: -1 is not from 0"),
    ],
)
def test_words_that_are_no_call(database: Database, words: List[str], told: str) -> None:
    command = [sys.executable, "-m", "tile_server", "--dsn", database.dsn, *words]
    run = subprocess.run(command, capture_output=True, text=True)
    assert run.returncode == 2 and told in run.stderr


def test_address_of_ipv6() -> None:
    """It is listened on before the database is asked, which isn't there."""
    try:
        socket.create_server(("::1", 0), family=socket.AF_INET6).close()
    except OSError:
        pytest.skip("this machine has no ::1")
    command = [sys.executable, "-m", "tile_server", "--dsn", "host=/nowhere dbname=map", "--host", "::1", "--port", "0"]
    run = subprocess.run(command, capture_output=True, text=True)
    assert run.returncode == 1 and "/nowhere/" in run.stderr
