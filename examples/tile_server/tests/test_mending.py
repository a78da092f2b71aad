"""--mend: tiles whose polygons break the rules are sent valid, with what was changed in headers, log and metrics."""
from __future__ import annotations

import gzip
import json
import pathlib
import tempfile
from concurrent.futures import ThreadPoolExecutor
from typing import Any, Dict, Iterator, List, Set, Tuple

import mvtgate
import pytest
from mvtgate import Profile
from prometheus_client.openmetrics import parser

from conftest import (
    CLOSE_PONDS,
    CLOSE_TO_EDGE,
    COMMON_CORNER,
    FIELD,
    FIRST,
    GZIP,
    LOOP,
    MEND_OUT_OF_MEMORY,
    NECK,
    NOTHING,
    OVERLAP,
    PLACES,
    PLAIN,
    PONDS,
    ROW,
    TWO_CORNERS,
    TWO_NAMES,
    area_of,
    expect_fault,
    expect_refusal,
    expect_told,
    judged,
    lines_of,
    rectangle,
    rings_of,
    samples,
    wait_for,
    without_rings,
)
from running import Database, Server, path_of, tile_server

MENDED, FAULT = "X-Tile-Mended", "X-Tile-Fault"
OF_POLYGONS = [CLOSE_PONDS, COMMON_CORNER, CLOSE_TO_EDGE, LOOP]
BY_FEATURE = {NECK: 160, OVERLAP: 170, TWO_CORNERS: 180}


@pytest.fixture(scope="module")
def folder() -> Iterator[pathlib.Path]:
    """Where the server that mends leaves faulty tiles."""
    with tempfile.TemporaryDirectory(prefix="tile_server.") as made:
        yield pathlib.Path(made)


@pytest.fixture(scope="module")
def mending(database: Database, folder: pathlib.Path) -> Iterator[Server]:
    """The server that mends."""
    with tile_server(database.dsn, "--mend", "--keep", str(folder)) as running:
        yield running


@pytest.fixture(scope="module")
def mending_by_feature(database: Database) -> Iterator[Server]:
    """The same by the profile `feature`."""
    with tile_server(database.dsn, "--mend", "--profile", "feature") as running:
        yield running


def told_in_log(line: str) -> List[Dict[str, Any]]:
    """The changes that a line of the log tells of."""
    assert " WARNING tile " in line
    told: List[Dict[str, Any]] = json.loads(line.partition(" mended: ")[2])
    return told


def apart(*rings: Set[Tuple[int, int]]) -> bool:
    """Whether no two rings have a vertex in common."""
    return len(set().union(*rings)) == sum(map(len, rings))


@pytest.mark.parametrize("column", OF_POLYGONS)
def test_tile_is_mended(mending: Server, ungated: Server, column: int) -> None:
    before = len(lines_of(mending, column))
    answer, faulty = mending.get(path_of(column), GZIP), ungated.get(path_of(column))
    layer, old = judged(answer)["areas"], mvtgate.dump(faulty.body)["layers"][0]
    assert answer.headers[MENDED] == "1" and FAULT not in answer.headers and "X-Tile-Dropped" not in answer.headers
    # all is as it was but for the rings of the feature at fault, which is the last one
    last = {len(old["features"]) - 1}
    assert without_rings(layer, last) == without_rings(old, last) and layer != old
    assert gzip.decompress(answer.body) == mvtgate.mend(faulty.body).tile
    (line,) = lines_of(mending, column)[before:]
    areas = [area_of(it["features"][-1]) for it in (old, layer)]
    assert told_in_log(line) == [{"layer": "areas", "id": ROW[column], "what": "mended", "area": areas}]


@pytest.mark.parametrize("column, touching", [(CLOSE_PONDS, (400, 400)), (COMMON_CORNER, (400, 400)), (CLOSE_TO_EDGE, (100, 500))])
def test_where_rings_touch_a_corner_is_cut(mending: Server, column: int, touching: Tuple[int, int]) -> None:
    exterior, *ponds = rings_of(judged(mending.get(path_of(column)))["areas"]["features"][-1])
    # (it is the ponds that lose corners, so that the land is one; its edge may be split where it was touched)
    assert exterior - {touching} == rectangle(100, 100, 1000, 1000) and apart(exterior, *ponds)
    # (of two ponds one may keep the corner)
    assert sum(touching in it for it in ponds) <= len(ponds) - 1
    assert all(max(abs(x - touching[0]), abs(y - touching[1])) <= 2 for it in ponds for x, y in it - ORIGINAL[column])


# the positions of the ponds, as the comments of tables.sql have them
ORIGINAL = {
    CLOSE_PONDS: rectangle(200, 200, 400, 400) | rectangle(400, 400, 600, 600),
    COMMON_CORNER: rectangle(200, 200, 400, 400) | rectangle(400, 400, 600, 600),
    CLOSE_TO_EDGE: {(100, 500), (500, 700), (500, 300)},
}


@pytest.mark.parametrize("column", BY_FEATURE)
def test_tile_is_mended_by_feature(mending_by_feature: Server, mending: Server, ungated: Server, column: int) -> None:
    answer, faulty = mending_by_feature.get(path_of(column)), ungated.get(path_of(column))
    (new,), (old,) = judged(answer, Profile.FEATURE)["areas"]["features"], mvtgate.dump(faulty.body)["layers"][0]["features"]
    assert answer.headers[MENDED] == "1" and new["id"] == old["id"] == BY_FEATURE[column]
    (told,) = told_in_log(lines_of(mending_by_feature, column)[-1])
    assert told["area"] == [area_of(old), area_of(new)]
    # by `polygon` nothing is wrong with it
    plain = mending.get(path_of(column))
    assert plain.body == faulty.body and MENDED not in plain.headers and lines_of(mending, column) == []


@pytest.mark.parametrize("headers", [PLAIN, GZIP])
@pytest.mark.parametrize("column", [FIELD, PLACES, PONDS])
def test_valid_tile_is_sent_as_it_is(mending: Server, mending_by_feature: Server, ungated: Server, column: int, headers: Dict[str, str]) -> None:
    wanted = ungated.get(path_of(column), headers)
    for running in (mending, mending_by_feature):
        answer = running.get(path_of(column), headers)
        assert judged(answer) and (answer.body, answer.headers["Etag"]) == (wanted.body, wanted.headers["Etag"])
        assert MENDED not in answer.headers and lines_of(running, column) == []


def test_tile_without_features(mending: Server) -> None:
    assert mending.get(path_of(NOTHING)).status == 204


@pytest.mark.parametrize("headers", [PLAIN, GZIP])
def test_what_a_client_has_is_not_sent_again(mending: Server, ungated: Server, headers: Dict[str, str]) -> None:
    first = mending.get(path_of(COMMON_CORNER), headers)
    known = {**headers, "If-None-Match": first.headers["Etag"]}
    again, head = mending.get(path_of(COMMON_CORNER), known), mending.get(path_of(COMMON_CORNER), headers, method="HEAD")
    assert (again.status, again.body, again.headers[MENDED], again.headers["Etag"]) == (304, b"", "1", first.headers["Etag"])
    assert (head.status, head.body, head.headers[MENDED], head.headers["Etag"]) == (200, b"", "1", first.headers["Etag"])
    assert head.headers["Content-Length"] == first.headers["Content-Length"] == str(len(first.body))
    # (the tag is of the bytes that are sent)
    assert ungated.get(path_of(COMMON_CORNER), known).status == 200


def test_fault_that_is_not_of_polygons(mending: Server, folder: pathlib.Path) -> None:
    told = expect_refusal(mending.get(path_of(TWO_NAMES), GZIP), TWO_NAMES)
    fault = expect_told(told, FIRST[TWO_NAMES])
    assert told["row"] == {"layer": "areas", "id": ROW[TWO_NAMES]}
    line = lines_of(mending, TWO_NAMES)[-1]
    assert f" ERROR tile 6/{TWO_NAMES}/20 refused: areas {ROW[TWO_NAMES]}: 304: " in line and line.endswith(f" {fault.text}")
    assert mvtgate.confirm((folder / f"6-{TWO_NAMES}-20.mvt").read_bytes(), (folder / f"6-{TWO_NAMES}-20.json").read_text())


def test_faulty_tile_is_kept_as_it_came(mending: Server, ungated: Server, folder: pathlib.Path) -> None:
    assert mending.get(path_of(LOOP)).status == 200
    tile = (folder / f"6-{LOOP}-20.mvt").read_bytes()
    assert tile == ungated.get(path_of(LOOP)).body
    assert mvtgate.confirm(tile, (folder / f"6-{LOOP}-20.json").read_text())


def test_mended_features_are_counted(database: Database) -> None:
    with tile_server(database.dsn, "--mend") as running:
        for column in (CLOSE_PONDS, COMMON_CORNER, COMMON_CORNER, TWO_NAMES, FIELD):
            running.get(path_of(column))
        assert samples(running, "tile_server_mended_total") == {("6",): 3}
        assert samples(running, "tile_server_changed_features_total") == {("areas", "mended", "6"): 3}
        assert samples(running, "tile_server_refused_total") == {("304", "areas", "6"): 1}
        # each tile is asked for and judged once
        assert samples(running, "tile_server_check_seconds_count") == samples(running, "tile_server_query_seconds_count") == {(): 5}
        assert samples(running, "tile_server_area_change_count") == {("areas",): 3}


def test_rows_are_told_as_exemplars(database: Database) -> None:
    with tile_server(database.dsn, "--mend") as running:
        running.get(path_of(CLOSE_TO_EDGE))
        (told,) = told_in_log(lines_of(running, CLOSE_TO_EDGE)[-1])
        body = running.get("/metrics", {"Accept": "application/openmetrics-text; version=0.0.1"}).body.decode()
    row = {"tile": f"6/{CLOSE_TO_EDGE}/20", "id": str(ROW[CLOSE_TO_EDGE])}
    # (this parser is strict)
    families = list(parser.text_string_to_metric_families(body))  # type: ignore[no-untyped-call]
    seen = {it.name: it.exemplar.labels for family in families for it in family.samples if it.exemplar}
    before, after = told["area"]
    areas = {"before": str(before), "after": str(after)}
    assert seen == {"tile_server_changed_features_total": row, "tile_server_area_change_bucket": {**row, **areas}}
    (change,) = (it.value for family in families for it in family.samples if it.name == "tile_server_area_change_sum")
    assert change == abs(after - before) > 0


def test_reports_what_is_not_mended(database: Database, ungated: Server) -> None:
    """With --report-only all tiles are sent: mended where that can be, and else as they came."""
    with tile_server(database.dsn, "--mend", "--report-only") as running:
        mended, faulty = running.get(path_of(COMMON_CORNER)), running.get(path_of(TWO_NAMES))
        assert judged(mended) and mended.headers[MENDED] == "1" and FAULT not in mended.headers
        assert (faulty.status, faulty.body) == (200, ungated.get(path_of(TWO_NAMES)).body)
        expect_fault(mvtgate.Fault.from_text(faulty.headers[FAULT]), FIRST[TWO_NAMES])
        assert MENDED not in faulty.headers
        assert samples(running, "tile_server_reported_total") == {("304", "areas", "6"): 1}
        assert samples(running, "tile_server_refused_total") == {}


def test_out_of_memory_where_all_is_sent(database: Database, ungated: Server) -> None:
    with tile_server(database.dsn, "--mend", "--report-only", program=["-c", MEND_OUT_OF_MEMORY]) as running:
        answer = running.get(path_of(COMMON_CORNER))
        assert (answer.status, answer.body) == (200, ungated.get(path_of(COMMON_CORNER)).body)
        assert json.loads(answer.headers[FAULT]) == {"unjudged": "out_of_memory"}


@pytest.mark.parametrize("words", [["--exact"], ["--exact", "--profile", "feature"]])
def test_mends_by_exact_verdicts_too(database: Database, ungated: Server, words: List[str]) -> None:
    with tile_server(database.dsn, "--mend", *words) as running:
        assert judged(running.get(path_of(COMMON_CORNER)))
        expect_told(expect_refusal(running.get(path_of(TWO_NAMES)), TWO_NAMES), FIRST[TWO_NAMES])
        assert running.get(path_of(FIELD)).body == ungated.get(path_of(FIELD)).body


# a program for `python3 -c` that is the server, in which mending a tile of its first word's length empties the folder of its
# second word, and takes until the folder is gone
SLOW = """
import os, sys, time
from mvtgate import _library
from tile_server.__main__ import main
length, path, mend = int(sys.argv[1]), sys.argv[2], _library.mend
def slow(profile, tile, is_dropping):
    if len(tile) == length:
        os.remove(os.path.join(path, "waits"))
        while os.path.exists(path):
            time.sleep(0.02)
    return mend(profile, tile, is_dropping)
_library.mend = slow
sys.exit(main(sys.argv[3:]))
"""


def test_others_are_answered_while_a_tile_is_mended(database: Database, ungated: Server) -> None:
    length = len(ungated.get(path_of(LOOP)).body)
    others = [FIELD, COMMON_CORNER, PLACES]
    assert length not in [len(ungated.get(path_of(it)).body) for it in others]
    folder = pathlib.Path(tempfile.mkdtemp(prefix="tile_server."))
    (folder / "waits").touch()
    program = ["-c", SLOW, str(length), str(folder)]
    with tile_server(database.dsn, "--mend", "--workers", "2", program=program) as running, ThreadPoolExecutor() as threads:
        waiting = threads.submit(running.get, path_of(LOOP))
        wait_for(lambda: not (folder / "waits").exists())
        for it in others * 2:
            judged(running.get(path_of(it)))
        assert running.get("/healthz").status == running.get("/metrics").status == 200
        assert not waiting.done()
        folder.rmdir()
        assert judged(waiting.result()) and waiting.result().headers[MENDED] == "1"
