"""What those who run the server ask it: /healthz and /metrics."""
from __future__ import annotations

import concurrent.futures
import contextlib
import time
from typing import Iterator, Set

import psycopg2  # type: ignore[import]
from prometheus_client.openmetrics import parser

from conftest import (
    CLOSE_PONDS,
    COMMON_CORNER,
    FIELD,
    MILESTONES,
    NOTHING,
    PONDS,
    TWO_NAMES,
    families,
    judged,
    locked_areas,
    samples,
    waits_for,
)
from running import SECONDS, Database, Reply, Server, map_database, path_of, tile_server

# what a health check may take; a busy machine has some more
HEALTH_SECONDS = 2
NOT_AVAILABLE = (503, {"error": "the database is not available"})
OK = (200, {"status": "ok"})
TOO_LONG = (503, {"error": "the database did not answer within 2 seconds"})


def told(answer: Reply) -> object:
    """What an answer of /healthz says, which no cache may keep."""
    assert answer.headers["Cache-Control"] == "no-store"
    return answer.status, answer.json()


def test_health_while_the_database_comes_and_goes() -> None:
    with map_database() as database, tile_server(database.dsn) as running:
        assert told(running.get("/healthz")) == OK
        database.stop()
        assert [told(running.get("/healthz")) for _ in range(2)] == [NOT_AVAILABLE] * 2
        database.start()
        assert told(running.get("/healthz")) == OK
        # a connection that is of before is no sign of anything
        database.stop()
        database.start()
        assert told(running.get("/healthz")) == OK
        assert running.log() == ""


def test_health_does_not_wait_for_tiles(database: Database) -> None:
    with tile_server(database.dsn, "--workers", "2", "--query-seconds", str(SECONDS)) as running:
        with concurrent.futures.ThreadPoolExecutor() as threads, locked_areas(database):
            waiting = [threads.submit(running.get, path_of(FIELD)) for _ in range(3)]
            waits_for(database, 2)
            assert told(running.get("/healthz")) == OK
            assert not any(it.done() for it in waiting)


def test_health_of_a_database_that_is_silent() -> None:
    with map_database() as database, tile_server(database.dsn, "--query-seconds", "1") as running:
        assert told(running.get("/healthz")) == OK
        with database.frozen(), concurrent.futures.ThreadPoolExecutor(20) as threads:
            begun = time.monotonic()
            asked = [threads.submit(running.get, "/healthz") for _ in range(20)]
            assert {str(told(it.result())) for it in asked} == {str(TOO_LONG)}
            # (they don't wait for each other)
            assert HEALTH_SECONDS <= time.monotonic() - begun < 2 * HEALTH_SECONDS + 10
        end = time.monotonic() + SECONDS
        while told(running.get("/healthz")) != OK:
            assert time.monotonic() < end
        assert running.stop() == 0


def test_end_while_the_database_is_silent() -> None:
    with map_database() as database, tile_server(database.dsn, "--query-seconds", "1") as running:
        with database.frozen():
            assert told(running.get("/healthz")) == TOO_LONG
            assert running.stop() == 0


def test_requests_are_counted(database: Database) -> None:
    with tile_server(database.dsn) as running:
        for column in (FIELD, FIELD, NOTHING, CLOSE_PONDS):
            running.get(path_of(column))
        running.get(path_of(FIELD), {"If-None-Match": "*"})
        # (2^5 columns, so that there is none of number 32)
        for address in (path_of(31, 5), path_of(32, 5), path_of(0, 23), path_of(0, 9999999999)):
            running.get(address)
        wanted = {("200", "6"): 2, ("304", "6"): 1, ("204", "6"): 1, ("500", "6"): 1, ("204", "5"): 1, ("404", "other"): 3}
        assert samples(running, "tile_server_requests_total") == wanted


def test_faults_are_counted(database: Database) -> None:
    with tile_server(database.dsn) as running:
        for column in (CLOSE_PONDS, COMMON_CORNER, COMMON_CORNER, TWO_NAMES, FIELD):
            running.get(path_of(column))
        wanted = {("504", "areas", "6"): 3, ("304", "areas", "6"): 1}
        assert samples(running, "tile_server_refused_total") == wanted
        assert samples(running, "tile_server_mended_total") == samples(running, "tile_server_reported_total") == {}
        # a check and a query for each tile
        assert samples(running, "tile_server_check_seconds_count") == samples(running, "tile_server_query_seconds_count") == {(): 5}


def test_tile_that_is_too_long_is_counted(database: Database) -> None:
    with tile_server(database.dsn, "--max-bytes", "1000") as running:
        running.get(path_of(PONDS))
        assert samples(running, "tile_server_refused_total") == {("too_long", "other", "6"): 1}


@contextlib.contextmanager
def faulty_place(database: Database) -> Iterator[None]:
    """Meanwhile the tile of the milestones has a fault in its only layer, the one of places: two ponds with one corner."""
    moved = "ST_Translate(geometry, ST_XMin(ST_TileEnvelope(6, 26, 20)) - ST_XMin(ST_TileEnvelope(6, 2, 20)), 0)"
    with contextlib.closing(psycopg2.connect(database.dsn)) as connection, connection.cursor() as cursor:
        connection.autocommit = True
        cursor.execute("ALTER TABLE places ALTER geometry TYPE geometry(Geometry, 3857)")
        try:
            cursor.execute(f"INSERT INTO places SELECT 9, 'ponds', {moved} FROM areas WHERE id = 120")
            yield
        finally:
            cursor.execute("DELETE FROM places WHERE id = 9")
            cursor.execute("ALTER TABLE places ALTER geometry TYPE geometry(Point, 3857)")


def test_layer_of_a_fault(database: Database) -> None:
    with tile_server(database.dsn) as running:
        assert set(judged(running.get(path_of(MILESTONES)))) == {"places"}
        with faulty_place(database):
            answer = running.get(path_of(MILESTONES))
        # (its layer has the number 0, as that of the areas has in other tiles)
        assert answer.json()["fault"]["layer"] == 0
        assert samples(running, "tile_server_refused_total") == {("504", "places", "6"): 1}


def test_times(database: Database) -> None:
    with tile_server(database.dsn, "--query-seconds", str(SECONDS)) as running, concurrent.futures.ThreadPoolExecutor() as threads:
        with locked_areas(database):
            waiting = threads.submit(running.get, path_of(PONDS))
            waits_for(database, 1)
            time.sleep(0.4)
        judged(waiting.result())
        assert samples(running, "tile_server_query_seconds_sum")[()] >= 0.4
        buckets = samples(running, "tile_server_query_seconds_bucket")
        assert (buckets[("0.3",)], buckets[("+Inf",)]) == (0, 1)
        assert 0 < samples(running, "tile_server_check_seconds_sum")[()] < 0.4


def test_no_query_is_timed_while_the_database_is_gone() -> None:
    with map_database() as database, tile_server(database.dsn) as running:
        database.stop()
        assert running.get(path_of(FIELD)).status == 503
        assert samples(running, "tile_server_query_seconds_count") == {(): 0}


def test_labels_are_few(server: Server) -> None:
    for zoom in (0, 22, 23, 99, 10**9):
        for place in (0, 3, 10**9):
            server.get(path_of(place, zoom, place))
    for path in ("/tiles/x/0/0.mvt", "/tiles/6/0/20.png", "/elsewhere", "/metrics?name=value"):
        server.get(path)
    for column in range(40):
        server.get(path_of(column))
    seen: Set[str] = set()
    for it in (sample for family in families(server) for sample in family.samples):
        assert set(it.labels) <= {"status", "zoom", "code", "layer", "reason", "le"}
        seen |= {f"{key} {value}" for key, value in it.labels.items() if key != "le"}
    zooms = {f"zoom {it}" for it in [*range(23), "other"]}
    statuses = {f"status {it}" for it in (200, 204, 304, 404, 500, 503)}
    reasons = {"reason gone", "reason too_slow", "reason refused"}
    assert seen <= zooms | statuses | reasons | {"layer areas", "layer places", "layer other", "code 504", "code 304"}


def test_form_of_metrics(server: Server) -> None:
    server.get(path_of(FIELD))
    answer = server.get("/metrics")
    assert (answer.status, answer.headers["Cache-Control"]) == (200, "no-store")
    assert answer.headers["Content-Type"].startswith("text/plain; version=0.0.4")
    read = {it.name: it for it in families(server)}
    assert read["tile_server_requests"].type == "counter" and read["process_resident_memory_bytes"].samples[0].value > 0
    assert read["tile_server_check_seconds"].type == read["tile_server_query_seconds"].type == "histogram"


def test_open_metrics(server: Server) -> None:
    answer = server.get("/metrics", {"Accept": "application/openmetrics-text; version=0.0.1"})
    assert answer.headers["Content-Type"].startswith("application/openmetrics-text")
    # (this parser is strict)
    names = {it.name for it in parser.text_string_to_metric_families(answer.body.decode())}  # type: ignore[no-untyped-call]
    assert {"tile_server_requests", "tile_server_refused", "tile_server_check_seconds"} <= names
