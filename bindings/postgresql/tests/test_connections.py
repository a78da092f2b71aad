"""Many connections, statements that are cancelled, and memory that is refused."""
from __future__ import annotations

import concurrent.futures
import pathlib
import subprocess
import threading
import time
from typing import Any, Callable, Dict, List, Tuple

import psycopg2  # type: ignore[import]
import pytest

from installation import SECONDS, Installation
from samples import PROFILES, SAMPLES, shapes

CONNECTIONS = 64
ROUNDS = 5

Connect = Callable[[], Any]
# which never ends by itself
ENDLESS = "SELECT count(*) FROM generate_series(1, 1000000) AS i, generate_series(1, 1000000) AS j WHERE mvt_is_valid(tile_of(i))"


@pytest.fixture
def with_tiles(connect: Connect) -> Connect:
    """Connects to a database with a function that gives a tile, which isn't known before the statement runs."""
    connect().cursor().execute("CREATE FUNCTION tile_of(integer) RETURNS bytea LANGUAGE plpgsql AS $$ BEGIN RETURN '\\x0801'::bytea; END $$")
    return connect


def test_64_connections(connect: Connect) -> None:
    cursor = connect().cursor()
    cursor.execute("CREATE TABLE samples (name text, tile bytea)")
    for it in SAMPLES:
        cursor.execute("INSERT INTO samples VALUES (%s, %s)", (it.name, it.tile))
    expected = {(it.name, profile): it.quick_fault(profile) for it in SAMPLES for profile in PROFILES}
    connections = [connect() for _ in range(CONNECTIONS)]
    all_are_there = threading.Barrier(CONNECTIONS)

    def asked(connection: Any) -> List[Dict[Tuple[str, str], Any]]:
        its = connection.cursor()
        all_are_there.wait(SECONDS)
        rounds = []
        for _ in range(ROUNDS):
            its.execute("SELECT name, profile, mvt_fault(tile, profile) FROM samples, unnest(%s) AS profile", (list(PROFILES),))
            rounds.append({(name, profile): fault for name, profile, fault in its.fetchall()})
        return rounds

    with concurrent.futures.ThreadPoolExecutor(CONNECTIONS) as pool:
        for rounds in pool.map(asked, connections):
            assert rounds == [expected] * ROUNDS


def test_a_statement_is_cancelled(with_tiles: Connect) -> None:
    connection, other = with_tiles(), with_tiles().cursor()
    with concurrent.futures.ThreadPoolExecutor(1) as pool:
        its = pool.submit(connection.cursor().execute, ENDLESS)
        pid, end = connection.info.backend_pid, time.monotonic() + SECONDS
        state = None
        while state != "active" and time.monotonic() < end:
            other.execute("SELECT state FROM pg_stat_activity WHERE pid = %s AND query LIKE 'SELECT count%%'", (pid,))
            state = (other.fetchone() or [None])[0]
        other.execute("SELECT pg_cancel_backend(%s)", (pid,))
        with pytest.raises(psycopg2.errors.QueryCanceled):
            its.result(SECONDS)
    assert_well(connection.cursor())


def test_a_statement_ends_by_its_timeout(with_tiles: Connect) -> None:
    cursor = with_tiles().cursor()
    cursor.execute("SET statement_timeout = '300ms'")
    with pytest.raises(psycopg2.errors.QueryCanceled):
        cursor.execute(ENDLESS)
    assert_well(cursor)


def test_a_request_during_a_call_is_seen_after_it(connect: Connect) -> None:
    cursor = connect().cursor()
    cursor.execute("SET statement_timeout = '1ms'")
    # (which takes far longer)
    with pytest.raises(psycopg2.errors.QueryCanceled):
        cursor.execute("SELECT mvt_is_valid(%s)", (shapes.zigzag(1 << 20),))
    cursor.execute("RESET statement_timeout")
    assert_well(cursor)


def assert_well(cursor: Any) -> None:
    """The connection goes on."""
    cursor.execute("SELECT mvt_is_valid(''), mvt_fault('\\x00') ->> 'code'")
    assert cursor.fetchone() == (True, "103")


def size_of(pid: int) -> int:
    """The address space of a process, in bytes."""
    line = next(it for it in pathlib.Path(f"/proc/{pid}/status").read_text().splitlines() if it.startswith("VmSize:"))
    return 1024 * int(line.split()[1])


CALLS = ["mvt_is_valid(tile)", "mvt_fault(tile)", "count(fault) FROM mvt_faults(tile) AS fault", "mvt_mend(tile)", "mvt_mend_report(tile)", "mvt_dump(tile)"]


@pytest.mark.parametrize("call", CALLS)
def test_memory_that_is_refused(installation: Installation, connect: Connect, call: str) -> None:
    connection = connect()
    cursor, pid = connection.cursor(), connection.info.backend_pid
    tile = shapes.zigzag(4 << 20)
    cursor.execute("CREATE TABLE tiles AS SELECT %s::bytea AS tile", (tile,))
    expression, _, source = call.partition(" FROM ")
    query = f"SELECT (SELECT {expression}{' FROM ' + source if source else ''}) IS NOT NULL FROM tiles"
    assert_well(cursor)
    # (some times the tile, and less than is asked for)
    limit = size_of(pid) + 3 * len(tile)
    limited = [*installation.as_whom, "prlimit", f"--pid={pid}"]
    subprocess.run([*limited, f"--as={limit}:"], check=True)
    with pytest.raises(psycopg2.errors.OutOfMemory) as told:
        cursor.execute(query)
    assert told.value.diag.message_detail == "mvtgate was refused memory for a tile."
    assert_well(cursor)
    subprocess.run([*limited, "--as=unlimited:"], check=True)
    assert_well(cursor)
