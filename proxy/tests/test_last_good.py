"""The last good tile of an address, in place of a refusal."""
from __future__ import annotations

import gzip
from typing import List

import pytest

from conftest import CUT, FAULTY, VALID
from running import Proxy, proxy
from upstream import Asked, reply, tile, upstream

TILE = "/1/2/3.mvt"
PACKED = gzip.compress(VALID, mtime=0)


class Changing:
    """A server whose answer changes."""

    def __init__(self, answer: bytes) -> None:
        self.answer = answer

    def __call__(self, _: Asked) -> bytes:
        return self.answer


def expect_stale(gate: Proxy, reason: str, body: bytes = VALID) -> None:
    stale = gate.get(TILE)
    assert (stale.status, stale.body, stale.headers["Cache-Control"]) == (200, body, "no-cache")
    assert int(stale.headers["X-Tile-Stale"]) >= 0 and reason in stale.headers["X-Tile-Fault"]
    assert stale.headers["Etag"] == '"one"' and "Expires" not in stale.headers and "Age" not in stale.headers
    assert gate.get(TILE, {"If-None-Match": '"one"'}).status == 304


@pytest.mark.parametrize("mode", ["refuse", "mend"])
def test_the_last_good_tile_stands_in_for_a_refusal(mode: str) -> None:
    server_of = Changing(tile(VALID, ETag='"one"', Cache_Control="max-age=60", Expires="0", Age="7"))
    with upstream(server_of) as server, proxy(server.url, "--mode", mode, "--last-good", "1M") as gate:
        assert "X-Tile-Stale" not in gate.get(TILE).headers
        server_of.answer = tile(CUT, ETag='"two"')
        expect_stale(gate, '"code":101')
        assert gate.get("/1/2/4.mvt").status == 500
        assert gate.get(TILE, {"Host": "other.example"}).status == 500
        server.close()
        expect_stale(gate, '"unjudged":"upstream_')
        assert gate.metric('tiles_total{answer="stale",verdict="fault"}') == 2
        assert gate.metric("last_good_tiles") == 1 and gate.metric("last_good_bytes") > len(VALID)


def test_a_new_good_tile_takes_its_place() -> None:
    server_of = Changing(tile(VALID, ETag='"zero"'))
    with upstream(server_of) as server, proxy(server.url, "--mode", "refuse", "--last-good", "1M") as gate:
        gate.get(TILE)
        server_of.answer = tile(b"", ETag='"one"')
        assert gate.get(TILE).body == b""
        server_of.answer = tile(FAULTY)
        expect_stale(gate, '"code":504', b"")


def test_a_client_that_takes_no_gzip_gets_it_unpacked() -> None:
    server_of = Changing(tile(PACKED, Content_Encoding="gzip", ETag='"one"', Vary="Accept-Encoding"))
    with upstream(server_of) as server, proxy(server.url, "--mode", "refuse", "--last-good", "1M") as gate:
        gate.get(TILE, {"Accept-Encoding": "gzip"})
        server_of.answer = tile(FAULTY)
        packed, plain = gate.get(TILE, {"Accept-Encoding": "gzip"}), gate.get(TILE)
        assert (packed.body, packed.headers["Content-Encoding"]) == (PACKED, "gzip")
        assert plain.body == VALID and "Content-Encoding" not in plain.headers and "Etag" not in plain.headers


FOR_ONE = [{"Cache_Control": "private"}, {"Cache_Control": "no-store"}, {"Vary": "Accept-Encoding, Cookie"}, {"Set_Cookie": "a=b"}]


@pytest.mark.parametrize("headers, asked", [*((it, {}) for it in FOR_ONE), ({}, {"Authorization": "Basic x"}), ({}, {"Cookie": "a=b"})])
def test_what_is_for_one_client_is_not_kept(headers: "dict[str, str]", asked: "dict[str, str]") -> None:
    server_of = Changing(tile(VALID, **headers))
    with upstream(server_of) as server, proxy(server.url, "--mode", "refuse", "--last-good", "1M") as gate:
        assert gate.get(TILE, asked).body == VALID
        server_of.answer = tile(FAULTY)
        assert gate.get(TILE).status == 500 and gate.metric("last_good_tiles") == 0


def test_no_more_is_kept_than_the_size() -> None:
    with upstream(lambda asked: tile(VALID if "good" in asked.target else FAULTY)) as server:
        with proxy(server.url, "--mode", "refuse", "--last-good", "4K") as gate:
            for number in range(100):
                assert gate.get(f"/1/2/{number}?good").status == 200
            assert 0 < gate.metric("last_good_bytes") <= 4096


def test_report_keeps_nothing() -> None:
    answers: List[bytes] = [tile(FAULTY), tile(VALID)]
    with upstream(lambda _: answers.pop()) as server, proxy(server.url, "--last-good", "1M") as gate:
        gate.get(TILE)
        assert gate.get(TILE).body == FAULTY


def test_other_answers_of_the_server_are_not_replaced() -> None:
    server_of = Changing(tile(VALID))
    with upstream(server_of) as server, proxy(server.url, "--mode", "refuse", "--last-good", "1M") as gate:
        gate.get(TILE)
        server_of.answer = reply(b"no", status="404 Not Found")
        assert gate.get(TILE).status == 404
