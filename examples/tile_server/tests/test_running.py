"""The server while queries wait, without memory, at its own end, and under load."""
from __future__ import annotations

import concurrent.futures
import shutil
import time

import pytest

from conftest import EXACT_OUT_OF_MEMORY, FIELD, GZIP, MEND_OUT_OF_MEMORY, OUT_OF_MEMORY, PLACES, PONDS, expect_later, judged, locked_areas, waits_for
from running import SECONDS, Database, Server, load, path_of, tile_server

def test_others_are_answered_while_queries_wait(server: Server, database: Database) -> None:
    with concurrent.futures.ThreadPoolExecutor() as threads:
        with locked_areas(database):
            waiting = [threads.submit(server.get, path_of(FIELD)) for _ in range(4)]
            waits_for(database, 4)
            assert server.get(path_of(0, 23)).status == 404
            assert not any(it.done() for it in waiting)
        for it in waiting:
            judged(it.result())


@pytest.mark.parametrize("words, refused", [([], OUT_OF_MEMORY), (["--mend"], MEND_OUT_OF_MEMORY)])
def test_out_of_memory(database: Database, words: list[str], refused: str) -> None:
    with tile_server(database.dsn, *words, program=["-c", refused]) as running:
        expect_later(running.get(path_of(FIELD)), "out of memory")
        assert f" ERROR tile 6/{FIELD}/20: mvtgate: out of memory" in running.log()


@pytest.mark.parametrize("words, refused, other", [([], OUT_OF_MEMORY, EXACT_OUT_OF_MEMORY), (["--exact"], EXACT_OUT_OF_MEMORY, OUT_OF_MEMORY)])
def test_verdicts_are_quick_unless_they_are_to_be_exact(database: Database, words: list[str], refused: str, other: str) -> None:
    with tile_server(database.dsn, *words, program=["-c", refused]) as running:
        expect_later(running.get(path_of(FIELD)), "out of memory")
    with tile_server(database.dsn, *words, program=["-c", other]) as running:
        judged(running.get(path_of(FIELD)))


def test_end_with_requests_under_way(database: Database) -> None:
    # (the query has to last as long as the lock)
    with tile_server(database.dsn, "--query-seconds", str(SECONDS)) as running, concurrent.futures.ThreadPoolExecutor() as threads:
        with locked_areas(database):
            asked = threads.submit(running.get, path_of(FIELD), GZIP)
            waits_for(database, 1)
            status = threads.submit(running.stop)
            end = time.monotonic() + SECONDS
            # no new ones are taken
            with pytest.raises(ConnectionError):
                while time.monotonic() < end:
                    running.connect().close()
            assert not asked.done() and not status.done()
        judged(asked.result())
        assert status.result() == 0


@pytest.mark.skipif(not shutil.which("wrk"), reason="wrk is missing")
@pytest.mark.parametrize("column", [FIELD, PLACES, PONDS])
def test_load(server: Server, column: int) -> None:
    seen = load(server.address, path_of(column), 1000, connections=8)
    assert seen.requests >= 1000
    assert (seen.other_than_200, seen.socket_errors) == (0, 0)
    assert 0 < seen.p50 <= seen.p99
    judged(server.get(path_of(column), GZIP))
