"""Each bound, with real sockets: lengths, memory, judgements, and the time of servers and clients."""
from __future__ import annotations

import contextlib
import gzip
import socket
import threading
import zlib
from typing import Iterator, List

import pytest

from conftest import FAULTY, VALID
from running import SECONDS, Proxy, proxy, wait_until
from upstream import Asked, reply, tile, upstream

TILE = "/1/2/3.mvt"
MEGABYTE = 1 << 20
# a valid tile of 8 MB: a field with an unknown number and a length
FILLER = b"\xa2\x01\x80\x80\x80\x04" + bytes(8 * MEGABYTE)


def expect_unjudged(gate: Proxy, path: str, status: int, reason: str) -> None:
    answer = gate.get(path, {"Accept-Encoding": "gzip, deflate"})
    assert (answer.status, answer.json()["unjudged"], answer.headers["Cache-Control"]) == (status, reason, "no-store"), answer
    assert answer.json()["error"] and answer.json()["address"] == path


def test_a_tile_may_be_as_long_as_the_limit_and_no_longer() -> None:
    exactly = FILLER
    tiles = {"/1/2/1": tile(exactly), "/1/2/2": tile(exactly + b"\x78\x01"), "/1/2/3": tile(gzip.compress(exactly), Content_Encoding="gzip")}
    tiles["/1/2/4"] = tile(gzip.compress(exactly + b"\x78\x01"), Content_Encoding="gzip")
    with upstream(lambda asked: tiles[asked.target]) as server:
        limit = str(len(exactly))
        with proxy(server.url, "--mode", "refuse", "--max-packed", limit, "--max-tile", limit) as gate:
            assert [gate.get(it).status for it in tiles] == [200, 502, 200, 502]
            expect_unjudged(gate, "/1/2/2", 502, "too_long")
            expect_unjudged(gate, "/1/2/4", 502, "too_long")
        with proxy(server.url, "--max-packed", limit, "--max-tile", limit) as gate:
            for path in ("/1/2/2", "/1/2/4"):
                answer = gate.get(path)
                assert answer.status == 200 and answer.headers["X-Tile-Fault"] == '{"unjudged":"too_long"}'
                assert tiles[path].endswith(answer.body) and len(answer.body) > 1000


def zeros(count: int) -> bytes:
    """gzip of so many zeros, a multiple of 16 MiB."""
    step = bytes(16 * MEGABYTE)
    # (zlib's number for a stream with gzip's head)
    packing = zlib.compressobj(1, zlib.DEFLATED, 31)
    return b"".join(packing.compress(step) for _ in range(count // len(step))) + packing.flush()


def test_a_gigabyte_of_zeros_costs_its_first_64_mib() -> None:
    bomb = zeros(1 << 30)
    with upstream(lambda asked: tile(bomb, Content_Encoding="gzip")) as server, proxy(server.url, "--mode", "refuse") as gate:
        expect_unjudged(gate, TILE, 502, "too_long")
        # (what was read, and twice as much while its room grew)
        assert gate.resident() < 400 * MEGABYTE


def test_a_length_that_is_announced_takes_no_memory() -> None:
    begun: List[int] = []

    def announce(asked: Asked) -> None:
        asked.connection.sendall(tile(b"", length=str(64 * MEGABYTE)) if "chunked" not in asked.target else b"HTTP/1.1 200 OK\r\nTransfer-Encoding: chunked\r\n\r\n3fffffff\r\n")
        begun.append(1)
        assert asked.connection.recv(1) == b""

    with upstream(announce) as server, proxy(server.url, "--mode", "refuse") as gate, contextlib.ExitStack() as clients:
        before = gate.resident()
        for number in range(100):
            client = clients.enter_context(gate.connect())
            client.sendall(f"GET /1/2/{number}{'?chunked' if number % 2 else ''} HTTP/1.1\r\nHost: a\r\n\r\n".encode())
        wait_until(lambda: len(begun) == 100)
        assert gate.metric("memory_bytes") < 100 * 128 * 1024 and gate.resident() - before < 100 * MEGABYTE
        clients.close()
        wait_until(lambda: gate.metric("memory_bytes") == 0)


@contextlib.contextmanager
def held(gate: Proxy, count: int, path: str) -> Iterator[List[socket.socket]]:
    """Clients that have asked, and don't read."""
    with contextlib.ExitStack() as clients:
        made = [clients.enter_context(gate.connect()) for _ in range(count)]
        for it in made:
            it.sendall(f"GET {path} HTTP/1.1\r\nHost: a\r\n\r\n".encode())
        yield made


def test_memory_has_a_bound() -> None:
    waiting = threading.Event()

    def answer(asked: Asked) -> bytes:
        if asked.target == "/1/2/9":
            asked.connection.sendall(tile(FILLER)[:-1])
            assert waiting.wait(SECONDS)
            return FILLER[-1:]
        return tile(FILLER) if asked.target == "/1/2/8" else tile(VALID)

    words = ["--mode", "refuse", "--max-tile", "8400000", "--max-packed", "8400000", "--memory", "337000000", "--remember", "0", "--upstream-time", "1h"]
    with upstream(answer) as server, proxy(server.url, *words) as gate:
        assert gate.get("/1/2/8").status == 200
        with held(gate, 10, "/1/2/9") as clients:
            wait_until(lambda: gate.metric("memory_bytes") > 80 * MEGABYTE)
            # (its worst is 32 times its length, and that isn't left)
            refused = gate.get("/1/2/8")
            assert (refused.status, refused.headers["Retry-After"]) == (503, "2") and refused.json()["unjudged"] == "out_of_memory"
            assert gate.get(TILE).body == VALID
            waiting.set()
            for it in clients:
                assert it.recv(12).startswith(b"HTTP/1.1")
        wait_until(lambda: gate.metric("memory_bytes") == 0)
        assert gate.get("/1/2/8").status == 200


def test_a_tile_that_cannot_be_mended_now_may_be_later() -> None:
    """As RFC 9110 has it of an overload that passes (15.6.4): 503, with the time after which to ask again."""
    waiting = threading.Event()

    def answer(asked: Asked) -> bytes:
        if asked.target == "/1/2/9":
            asked.connection.sendall(tile(FILLER)[:-1])
            assert waiting.wait(SECONDS)
            return FILLER[-1:]
        return tile(FAULTY + b"\xa2\x01\x80\xc0\x3c" + bytes(991232))

    # (the least memory for such a tile: 140 times its length)
    words = ["--mode", "mend", "--max-tile", "1100000", "--max-packed", "8400000", "--memory", "154000000", "--upstream-time", "1h"]
    with upstream(answer) as server, proxy(server.url, *words) as gate:
        with held(gate, 10, "/1/2/9") as clients:
            wait_until(lambda: gate.metric("memory_bytes") > 80 * MEGABYTE)
            # (32 times its length is left to judge it, and not 132 times to mend it)
            refused = gate.get(TILE)
            told = refused.json()
            assert (refused.status, refused.headers["Retry-After"], refused.headers["Cache-Control"]) == (503, "2", "no-store")
            assert (told["unmended"], told["fault"]["code"]) == ("out_of_memory", 504) and '"code":504' in refused.headers["X-Tile-Fault"]
            assert [it["unmended"] for it in gate.lines("fault")] == ["out_of_memory"]
            waiting.set()
            for it in clients:
                assert it.recv(12).startswith(b"HTTP/1.1")
        wait_until(lambda: gate.metric("memory_bytes") == 0)
        mended = gate.get(TILE)
        assert (mended.status, mended.headers["X-Tile-Mended"]) == (200, "504")


def test_a_long_tile_is_not_mended_by_feature() -> None:
    # (a field with an unknown number and a length, as in FILLER)
    long = FAULTY + b"\xa2\x01\x80\x80\x40" + bytes(MEGABYTE)
    with upstream(lambda _: tile(long)) as server:
        with proxy(server.url, "--mode", "mend", "--profile", "feature") as gate:
            answer = gate.get(TILE)
            assert (answer.status, answer.json()["fault"]["code"]) == (500, 504), answer
        with proxy(server.url, "--mode", "mend") as gate:
            answer = gate.get(TILE)
            assert (answer.status, answer.headers["X-Tile-Mended"]) == (200, "504"), answer


def slow_tile() -> bytes:
    """A valid tile that takes a while to be judged: 500,000 layers, whose names are in no order."""
    letters = [bytes([it]) for it in range(0x30, 0x30 + 64)]
    pairs = [one + other for one in letters for other in letters]
    # (an odd factor, so that each name comes once)
    numbers = (it * 2654435761 % 2**24 for it in range(500_000))
    return b"".join(b"\x1a\x08\x78\x02\x0a\x04" + pairs[it >> 12] + pairs[it & 4095] for it in numbers)


def test_a_judgement_blocks_no_other_requests() -> None:
    slow = slow_tile()
    is_over = threading.Event()
    statuses: List[int] = []

    def keep_asking(gate: Proxy) -> None:
        while not is_over.is_set():
            statuses.append(gate.get("/1/2/3?slow").status)

    with upstream(lambda asked: tile(slow) if "slow" in asked.target else tile(VALID) if "tile" in asked.target else reply(b"page")) as server:
        with proxy(server.url, "--mode", "refuse", "--judgements", "1", "--judge-wait", "1ms", "--remember", "0") as gate:
            asking = threading.Thread(target=keep_asking, args=[gate])
            asking.start()

            def is_busy() -> bool:
                answer = gate.get("/1/2/4?tile")
                assert gate.get("/page").body == b"page" and answer.status in (200, 503)
                return answer.status == 503 and bool(answer.json()["unjudged"] == "busy") and answer.headers["Retry-After"] == "2"

            try:
                wait_until(is_busy)
            finally:
                is_over.set()
                asking.join()
            assert set(statuses) <= {200, 503} and gate.get("/1/2/4?tile").status == 200
            assert gate.metric('unjudged_total{answer="refused",reason="busy"}') > 0


def hang(asked: Asked) -> None:
    """A server that says nothing."""
    assert asked.connection.recv(1) == b""


def hang_in_the_middle(asked: Asked) -> None:
    asked.connection.sendall(tile(VALID[:5], length=str(len(VALID))))
    assert asked.connection.recv(1) == b""


def trickle(asked: Asked) -> None:
    """A byte now and then, so that no single wait is long."""
    asked.connection.sendall(tile(b"", length=str(MEGABYTE)))
    with contextlib.suppress(OSError):
        while True:
            asked.connection.sendall(b"\0")
            asked.connection.settimeout(0.05)
            with contextlib.suppress(socket.timeout):
                if asked.connection.recv(1) == b"":
                    return


@pytest.mark.parametrize("mode", ["report", "refuse"])
@pytest.mark.parametrize("answer", [hang, hang_in_the_middle, trickle])
def test_a_server_that_is_too_slow(answer, mode: str) -> None:  # type: ignore[no-untyped-def]
    with upstream(answer) as server, proxy(server.url, "--mode", mode, "--upstream-time", "300ms") as gate:
        expect_unjudged(gate, TILE, 504, "upstream_too_slow")
        wait_until(lambda: gate.metric("memory_bytes") == 0)


def test_other_content_may_take_long_when_it_has_begun() -> None:
    def answer(asked: Asked) -> None:
        asked.connection.sendall(reply(b"a", length=str(2)))
        # (longer than a tile may take)
        with contextlib.suppress(socket.timeout):
            asked.connection.settimeout(1)
            asked.connection.recv(1)
        asked.connection.sendall(b"b")

    with upstream(answer) as server, proxy(server.url, "--mode", "refuse", "--upstream-time", "300ms") as gate:
        assert gate.get("/page").body == b"ab"
    with upstream(hang) as server, proxy(server.url, "--mode", "refuse", "--upstream-time", "300ms") as gate:
        expect_unjudged(gate, "/page", 504, "upstream_too_slow")


def die(asked: Asked) -> None:
    return None


def die_in_the_middle(asked: Asked) -> None:
    asked.connection.sendall(tile(VALID[:5], length=str(len(VALID))))


def die_in_a_chunk(asked: Asked) -> None:
    asked.connection.sendall(b"HTTP/1.1 200 OK\r\nContent-Type: application/vnd.mapbox-vector-tile\r\nTransfer-Encoding: chunked\r\n\r\nff\r\nabc")


def no_http(asked: Asked) -> None:
    asked.connection.sendall(b"\x00\x01\x02 no HTTP at all\r\n\r\n")


def endless_headers(asked: Asked) -> None:
    with contextlib.suppress(OSError):
        asked.connection.sendall(b"HTTP/1.1 200 OK\r\n" + b"X-More: 1\r\n" * 400000)


@pytest.mark.parametrize("mode", ["report", "refuse"])
@pytest.mark.parametrize(
    "answer, reason",
    [(die, "upstream_gone"), (die_in_the_middle, "upstream_cut"), (die_in_a_chunk, "upstream_cut"), (no_http, "upstream_gone"), (endless_headers, "upstream_gone")],
)
def test_a_server_that_dies_or_lies(answer, reason: str, mode: str) -> None:  # type: ignore[no-untyped-def]
    with upstream(answer) as server, proxy(server.url, "--mode", mode) as gate:
        expect_unjudged(gate, TILE, 502, reason)
        assert gate.metric("memory_bytes") == 0


def test_a_server_that_sends_more_than_it_said() -> None:
    with upstream(lambda _: tile(VALID + b"more", length=str(len(VALID)))) as server, proxy(server.url, "--mode", "refuse") as gate:
        assert [gate.get(TILE).body for _ in range(3)] == [VALID] * 3


def test_a_server_that_is_not_there() -> None:
    with upstream(die) as server:
        url = server.url
    with proxy(url, "--mode", "refuse") as gate:
        expect_unjudged(gate, TILE, 502, "upstream_gone")
        expect_unjudged(gate, "/page", 502, "upstream_gone")


def closes(client: socket.socket) -> bool:
    """Whether the proxy closes the connection, whatever it says before."""
    with contextlib.suppress(ConnectionError):
        while client.recv(65536):
            pass
    return True


def test_half_a_request_is_left() -> None:
    with upstream(lambda _: tile(VALID)) as server, proxy(server.url, "--client-time", "300ms") as gate:
        for half in (b"", b"GET /1/2/3.mvt HT", b"GET /1/2/3.mvt HTTP/1.1\r\nHost: a\r\nX-More"):
            with gate.connect() as client:
                client.sendall(half)
                assert closes(client)
        assert server.asked == [] and gate.get(TILE).body == VALID


def test_half_a_body_is_left() -> None:
    with upstream(lambda _: reply(b"got it")) as server, proxy(server.url, "--client-time", "300ms") as gate, gate.connect() as client:
        client.sendall(b"POST /x HTTP/1.1\r\nHost: a\r\nContent-Length: 100\r\n\r\nhalf")
        received = b""
        while b"\r\n\r\n" not in received:
            part = client.recv(4096)
            assert part, received
            received += part
        assert received.startswith(b"HTTP/1.1 408")


def test_a_client_that_reads_nothing_is_left() -> None:
    with upstream(lambda _: tile(FILLER)) as server, proxy(server.url, "--client-time", "500ms") as gate:
        with held(gate, 5, TILE):
            wait_until(lambda: gate.metric("memory_bytes") > 0)
            wait_until(lambda: gate.metric("memory_bytes") == 0 and gate.metric("connections") == 0)


def test_a_client_that_goes_away_ends_the_request_upstream() -> None:
    ends: List[bytes] = []

    def answer(asked: Asked) -> None:
        ends.append(asked.connection.recv(1))

    with upstream(answer) as server, proxy(server.url, "--mode", "refuse") as gate:
        for path in (TILE, "/page"):
            with gate.connect() as client:
                client.sendall(f"GET {path} HTTP/1.1\r\nHost: a\r\n\r\n".encode())
                wait_until(lambda: len(server.asked) > len(ends))
            wait_until(lambda: len(server.asked) == len(ends))
        assert ends == [b"", b""]
        wait_until(lambda: gate.metric('requests_total{status="499"}') == 2)
        assert gate.metric('tiles_total{answer="refused",verdict="unjudged"}') == 0


def test_headers_have_a_bound() -> None:
    with upstream(lambda _: tile(VALID)) as server, proxy(server.url) as gate, gate.connect() as client:
        with contextlib.suppress(OSError):
            client.sendall(b"GET / HTTP/1.1\r\n" + b"X-More: 1\r\n" * 20000)
        with contextlib.suppress(ConnectionError):
            assert client.recv(12) in (b"HTTP/1.1 431", b"")
        assert server.asked == []


def test_connections_have_a_bound() -> None:
    with upstream(lambda _: tile(VALID)) as server, proxy(server.url, "--connections", "3", "--client-time", "10m") as gate:
        clients = [gate.connect() for _ in range(3)]
        wait_until(lambda: gate.metric("connections") >= 3)
        with gate.connect() as late:
            late.sendall(b"GET /1/2/3.mvt HTTP/1.1\r\nHost: a\r\n\r\n")
            assert server.asked == []
            clients.pop().close()
            assert late.recv(12) == b"HTTP/1.1 200"
        for it in clients:
            it.close()
