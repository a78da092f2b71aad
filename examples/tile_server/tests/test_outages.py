"""The server while the database is slow, gone, silent, or lacks its tables: what is answered, logged and counted."""
from __future__ import annotations

import datetime
import re
import subprocess
import sys
import time
from typing import List, Tuple

import pytest
from conftest import FIELD, GZIP, expect_later, judged, locked_areas, samples
from running import SECONDS, Database, Server, map_database, path_of, tile_server

WORKERS = 3
FAILURES = "tile_server_query_failures_total"
_OUTAGE = re.compile(
    r"(\S+ \S+) ERROR tile 6/0/20: the database is not available: .*?(?: \(([0-9]+) such lines left out\))?", re.ASCII
)


def outages(server: Server) -> List[Tuple[datetime.datetime, int]]:
    """The lines of the log that say that the database is gone: when, and how many others each counts."""
    found = [_OUTAGE.fullmatch(it) for it in server.log().splitlines()]
    assert all(found), server.log()
    return [(datetime.datetime.strptime(it[1], "%Y-%m-%d %H:%M:%S,%f"), int(it[2] or 0)) for it in found if it]


def told(server: Server) -> int:
    """How many requests the log tells of."""
    return sum(1 + left_out for _, left_out in outages(server))


def test_database_that_ends_and_comes_back() -> None:
    with map_database() as database, tile_server(database.dsn, "--workers", str(WORKERS)) as running:
        before = running.get(path_of(FIELD))
        judged(before)
        database.stop()
        for _ in range(WORKERS + 2):
            expect_later(running.get(path_of(FIELD)), "the database is not available")
        assert samples(running, FAILURES) == {("gone",): WORKERS + 2, ("too_slow",): 0, ("refused",): 0}
        database.start()
        assert running.get(path_of(FIELD)).body == before.body


def test_log_while_the_database_is_gone() -> None:
    with map_database() as database, tile_server(database.dsn) as running:
        database.stop()
        requests, end = 0, time.monotonic() + 3.5
        while time.monotonic() < end or requests < 50:
            assert running.get(path_of(FIELD)).status == 503
            requests += 1
        # what waits is written at the end of its second, without another request
        deadline = time.monotonic() + SECONDS
        while told(running) < requests:
            assert time.monotonic() < deadline
            time.sleep(0.1)
        assert told(running) == requests
        times = [it for it, _ in outages(running)]
        # (the clock of the log may differ by some milliseconds)
        assert len(times) >= 3 and all((later - it).total_seconds() > 0.95 for it, later in zip(times, times[1:]))


def test_count_at_the_end_of_the_server() -> None:
    with map_database() as database, tile_server(database.dsn) as running:
        database.stop()
        assert [running.get(path_of(FIELD)).status for _ in range(5)] == [503] * 5
        assert running.stop() == 0
        assert told(running) == 5


def test_database_that_is_started_again() -> None:
    with map_database() as database, tile_server(database.dsn, "--workers", str(WORKERS)) as running:
        judged(running.get(path_of(FIELD)))
        database.stop()
        database.start()
        # each connection of the pool shows once that it is broken
        statuses = [running.get(path_of(FIELD)).status for _ in range(WORKERS + 3)]
        assert statuses == [503] * WORKERS + [200] * 3


def test_database_that_is_silent() -> None:
    with map_database() as database, tile_server(database.dsn, "--query-seconds", "0.5") as running:
        judged(running.get(path_of(FIELD)))
        with database.frozen():
            answer = running.get(path_of(FIELD))
            expect_later(answer, "the database is not available")
        assert "no answer within 2.5 seconds" in running.log()
        judged(running.get(path_of(FIELD)))


# (the second one is no description of a database)
@pytest.mark.parametrize("dsn, said", [("host=/nowhere dbname=map", "/nowhere"), ("map", 'missing "=" after "map"')])
def test_no_database_at_the_beginning(dsn: str, said: str) -> None:
    command = [sys.executable, "-m", "tile_server", "--port", "0", "--dsn", dsn]
    run = subprocess.run(command, capture_output=True, text=True)
    assert (run.returncode, run.stdout) == (1, "") and run.stderr.startswith("tile_server: ") and said in run.stderr


def test_query_that_fails(database: Database) -> None:
    # (a database without the tables)
    with tile_server(database.dsn.replace("dbname=map", "dbname=template1")) as running:
        answer = running.get(path_of(FIELD))
        assert (answer.status, answer.json()["error"]) == (500, "the query failed")
        assert answer.headers["Cache-Control"] == "no-store" and "Retry-After" not in answer.headers
        assert f" ERROR tile 6/{FIELD}/20: the query failed: " in running.log()
        assert samples(running, FAILURES) == {("gone",): 0, ("too_slow",): 0, ("refused",): 1}


def test_query_that_takes_too_long(database: Database) -> None:
    with tile_server(database.dsn, "--query-seconds", "0.3") as running:
        with locked_areas(database):
            answer = running.get(path_of(FIELD), GZIP)
        expect_later(answer, "the query took too long")
        (line,) = running.log().splitlines()
        assert f" ERROR tile 6/{FIELD}/20: the query took too long: canceling statement due to statement timeout" in line
        assert samples(running, FAILURES) == {("gone",): 0, ("too_slow",): 1, ("refused",): 0}
        # the connection is as good as before
        judged(running.get(path_of(FIELD)))


def test_slow_and_gone_are_told_apart() -> None:
    with map_database() as database, tile_server(database.dsn, "--query-seconds", "0.3") as running:
        with locked_areas(database):
            slow = running.get(path_of(FIELD))
        database.stop()
        gone = running.get(path_of(FIELD))
    assert [it.json()["error"] for it in (slow, gone)] == ["the query took too long", "the database is not available"]
    # a slow tile will be slow again, and the database may be back in a moment
    assert int(slow.headers["Retry-After"]) > int(gone.headers["Retry-After"]) > 0
