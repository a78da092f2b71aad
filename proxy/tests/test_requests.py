"""What is asked of the server for a tile, and how a client's conditions, ranges and encodings are answered."""
from __future__ import annotations

import gzip
import socket
import zlib
from typing import Optional

import pytest

from conftest import CUT, FAULTY, VALID
from running import TILE_TYPE, Proxy, proxy
from upstream import Asked, head_of, reply, tile, upstream

TILE, ELSEWHERE = "/1/2/3.mvt", "/download?tile=1"
DATE = "Wed, 01 Jan 2025 00:00:00 GMT"
PACKED = gzip.compress(VALID, mtime=0)


def of_server(asked: Asked) -> bytes:
    """A server that does what it is asked, as a good one does."""
    if asked.headers.get("if-none-match") == '"one"':
        return reply(status="304 Not Modified", ETag='"one"')
    if asked.headers.get("range"):
        return reply(VALID[:4], status="206 Partial Content", Content_Type=TILE_TYPE, Content_Range=f"bytes 0-3/{len(VALID)}")
    answer = tile(VALID, ETag='"one"', Last_Modified=DATE, Vary="Accept-Encoding", Cache_Control="public, max-age=60")
    return answer[: answer.index(b"\r\n\r\n") + 4] if asked.method == "HEAD" else answer


@pytest.mark.parametrize("path", [TILE, ELSEWHERE])
@pytest.mark.parametrize("mode", ["report", "refuse"])
def test_head_has_the_headers_of_get(path: str, mode: str) -> None:
    with upstream(of_server) as server, proxy(server.url, "--mode", mode) as gate:
        whole, head = gate.get(path), gate.get(path, method="HEAD")
        assert (whole.status, whole.body, head.status, head.body) == (200, VALID, 200, b"")
        assert {**whole.headers, "Date": ""} == {**head.headers, "Date": ""}


def test_head_of_a_faulty_tile_is_refused() -> None:
    for path in (TILE, ELSEWHERE):
        with upstream(lambda _: tile(FAULTY) if _.method == "GET" else tile(b"")) as server, proxy(server.url, "--mode", "refuse") as gate:
            head = gate.get(path, method="HEAD")
            assert (head.status, head.body) == (500, b"") and int(head.headers["Content-Length"]) > 0


@pytest.mark.parametrize("path", [TILE, ELSEWHERE])
def test_a_condition_is_answered_when_the_tile_was_judged(path: str) -> None:
    with upstream(of_server) as server, proxy(server.url, "--mode", "refuse") as gate:
        for condition in ({"If-None-Match": '"one"'}, {"If-None-Match": 'W/"zero", W/"one"'}, {"If-None-Match": "*"}, {"If-Modified-Since": DATE}):
            answer = gate.get(path, condition)
            assert (answer.status, answer.body) == (304, b""), condition
            assert answer.headers["Etag"] == '"one"' and answer.headers["Vary"] == "Accept-Encoding"
            assert answer.headers["Cache-Control"] == "public, max-age=60" and "Content-Type" not in answer.headers
        for condition in ({"If-None-Match": '"two"'}, {"If-None-Match": "one"}, {"If-Modified-Since": "Tue, 31 Dec 2024 00:00:00 GMT"}):
            assert gate.get(path, condition).body == VALID, condition
        # (a tag counts more than a date)
        assert gate.get(path, {"If-None-Match": '"two"', "If-Modified-Since": DATE}).status == 200
    assert gate.process.returncode == 0


@pytest.mark.parametrize("path", [TILE, ELSEWHERE])
def test_no_condition_lets_a_faulty_tile_by(path: str) -> None:
    def answer(asked: Asked) -> bytes:
        if "if-none-match" in asked.headers:
            return reply(status="304 Not Modified", ETag='"one"')
        return tile(FAULTY, ETag='"one"') if asked.method == "GET" else reply(Content_Type=TILE_TYPE)

    with upstream(answer) as server, proxy(server.url, "--mode", "refuse") as gate:
        assert gate.get(path, {"If-None-Match": '"one"'}).status == 500


@pytest.mark.parametrize("path", [TILE, ELSEWHERE])
def test_a_tile_is_sent_whole_whatever_range_is_asked(path: str) -> None:
    with upstream(of_server) as server, proxy(server.url, "--mode", "refuse") as gate:
        for asked in ({"Range": "bytes=0-3"}, {"Range": "bytes=0-3,6-7"}, {"Range": "bytes=0-3", "If-Range": '"one"'}):
            answer = gate.get(path, asked)
            assert (answer.status, answer.body) == (200, VALID)
            assert "Content-Range" not in answer.headers


def test_several_ranges_of_an_address_that_is_none_of_a_tile() -> None:
    def answer(asked: Asked) -> bytes:
        if "range" in asked.headers:
            return reply(b"--x\r\n\r\n", status="206 Partial Content", Content_Type="multipart/byteranges; boundary=x")
        return of_server(asked)

    with upstream(answer) as server, proxy(server.url, "--mode", "refuse") as gate:
        assert gate.get(ELSEWHERE, {"Range": "bytes=0-3,6-7"}).body == VALID


def encoded_answer(asked: Asked) -> bytes:
    """As servers that take the first encoding they know: br, then gzip."""
    taken = asked.headers.get("accept-encoding", "")
    if "br" in taken:
        return tile(b"packed by br", Content_Encoding="br", Vary="Accept-Encoding")
    if "gzip" in taken:
        return tile(PACKED, Content_Encoding="gzip", Vary="Accept-Encoding")
    return tile(VALID, Vary="Accept-Encoding")


@pytest.mark.parametrize("path", [TILE, ELSEWHERE])
@pytest.mark.parametrize(
    "taken, wanted", [("br, gzip;q=0.8", "gzip"), ("br", None), ("gzip", "gzip"), (None, None), ("br;q=1.0, *;q=0.5", None), ("identity", None)]
)
def test_encodings_that_cannot_be_unpacked_are_not_asked_for(path: str, taken: Optional[str], wanted: Optional[str]) -> None:
    with upstream(encoded_answer) as server, proxy(server.url, "--mode", "refuse") as gate:
        answer = gate.get(path, {"Accept-Encoding": taken} if taken else {})
        # (at an address that isn't known for a tile's the server is asked again, for no encoding)
        wanted = None if path == ELSEWHERE and taken and "br" in taken else wanted
        assert answer.status == 200 and answer.headers.get("Content-Encoding") == wanted
        assert answer.body == (PACKED if wanted else VALID) and answer.headers["Vary"] == "Accept-Encoding"


def test_an_encoding_that_cannot_be_unpacked_is_refused_or_reported() -> None:
    with upstream(lambda _: tile(b"packed by br", Content_Encoding="br")) as server:
        with proxy(server.url, "--mode", "refuse") as gate:
            answer = gate.get(TILE, {"Accept-Encoding": "br"})
            assert (answer.status, answer.json()["unjudged"]) == (502, "encoding")
        with proxy(server.url) as gate:
            answer = gate.get(TILE, {"Accept-Encoding": "br"})
            assert (answer.status, answer.body) == (200, b"packed by br")
            assert answer.headers["X-Tile-Fault"] == '{"unjudged":"encoding"}'


def bare(tile_bytes: bytes) -> bytes:
    packing = zlib.compressobj(wbits=-15)
    return packing.compress(tile_bytes) + packing.flush()


@pytest.mark.parametrize(
    "encoding, packed", [("gzip", PACKED), ("x-gzip", PACKED), ("GZIP", PACKED), ("deflate", zlib.compress(VALID)), ("deflate", bare(VALID)), ("identity", VALID)]
)
def test_what_is_packed_is_sent_to_the_byte_and_judged_unpacked(encoding: str, packed: bytes) -> None:
    with upstream(lambda _: tile(packed, Content_Encoding=encoding)) as server, proxy(server.url, "--mode", "refuse") as gate:
        answer = gate.get(TILE, {"Accept-Encoding": "gzip, deflate"})
        assert (answer.status, answer.body, answer.headers["Content-Encoding"]) == (200, packed, encoding)


@pytest.mark.parametrize("encoding, packed", [("gzip", PACKED), ("deflate", zlib.compress(VALID)), ("deflate", bare(VALID))])
def test_what_is_packed_wrongly_is_refused(encoding: str, packed: bytes) -> None:
    wrong = [packed[:at] for at in range(1, len(packed))] + [packed + b"more"]
    if encoding == "gzip":
        # (a wrong sum, a wrong length; two members, the second of a tile or of nothing)
        wrong += [packed[:-8] + bytes([packed[-8] ^ 1]) + packed[-7:], packed[:-1] + b"\x01", packed + packed, packed + gzip.compress(b"")]
    with upstream(lambda asked: tile(wrong[int(asked.target.split("/")[3])], Content_Encoding=encoding)) as server, proxy(server.url, "--mode", "refuse") as gate:
        for at in range(len(wrong)):
            answer = gate.get(f"/1/2/{at}", {"Accept-Encoding": "gzip, deflate"})
            # (bare deflate has no sum: what is cut may be read as something else, which is judged)
            assert answer.status in ((502, 500) if encoding == "deflate" else (502,)), (at, answer)
            assert answer.status == 500 or answer.json()["unjudged"] == "packing"


def test_a_file_that_is_packed_and_does_not_say_so_is_told_of() -> None:
    with upstream(lambda _: tile(PACKED)) as server, proxy(server.url, "--mode", "refuse") as gate:
        told = gate.get(TILE).json()
        assert told["code"] == 104 and "gzip" in told["explanation"][2]


def streams(asked: Asked) -> None:
    """A page in two parts, the second of which comes only when the client has the first."""
    asked.connection.sendall(b"HTTP/1.1 200 OK\r\nContent-Type: text/plain\r\nTransfer-Encoding: chunked\r\n\r\n5\r\nfirst\r\n")
    assert asked.connection.recv(1) == b""


def test_other_content_streams() -> None:
    with upstream(streams) as server, proxy(server.url, "--mode", "refuse") as gate, gate.connect() as client:
        client.sendall(b"GET /events HTTP/1.1\r\nHost: a\r\n\r\n")
        received = b""
        while b"first" not in received:
            received += client.recv(4096)


def test_other_methods_and_their_bodies_pass() -> None:
    def answer(asked: Asked) -> bytes:
        return reply(f"{asked.method} {asked.target} {asked.headers.get('content-length')}".encode())

    with upstream(answer) as server, proxy(server.url, "--mode", "refuse") as gate:
        assert gate.get("/1/2/3.mvt?a=b", method="POST", body=b"x" * 100000).body == b"POST /1/2/3.mvt?a=b 100000"
        assert gate.get("/x", method="OPTIONS").body.startswith(b"OPTIONS /x")


def test_an_upgrade_passes() -> None:
    def answer(asked: Asked) -> None:
        asked.connection.sendall(b"HTTP/1.1 101 Switching Protocols\r\nConnection: Upgrade\r\nUpgrade: echo\r\n\r\n")
        asked.connection.sendall(asked.connection.recv(100))

    with upstream(answer) as server, proxy(server.url, "--mode", "refuse") as gate, gate.connect() as client:
        client.sendall(b"GET /socket HTTP/1.1\r\nHost: a\r\nConnection: Upgrade\r\nUpgrade: echo\r\n\r\n")
        received = client.recv(4096)
        while b"\r\n\r\n" not in received:
            received += client.recv(4096)
        assert received.startswith(b"HTTP/1.1 101")
        client.sendall(b"hello")
        assert client.recv(5, socket.MSG_WAITALL) == b"hello"


@pytest.mark.parametrize("path", [TILE, ELSEWHERE])
def test_an_upgrade_that_is_not_made_lets_no_tile_by(path: str) -> None:
    with upstream(lambda _: tile(FAULTY)) as server, proxy(server.url, "--mode", "refuse") as gate:
        asked = {"Connection": "Upgrade, HTTP2-Settings", "Upgrade": "h2c", "HTTP2-Settings": "AAMAAABkAAQAoAAAAAIAAAAA"}
        assert gate.get(path, asked).status == 500


def test_no_tunnel_of_h2c_is_made() -> None:
    """What goes through it isn't judged, so the server isn't offered it, and answers by HTTP/1.1."""
    with upstream(lambda it: reply(f"{sorted({'connection', 'upgrade', 'http2-settings'} & set(it.headers))}".encode())) as server, proxy(server.url) as gate:
        answer = gate.get("/tiles.json", {"Connection": "Upgrade, HTTP2-Settings", "Upgrade": "h2c", "HTTP2-Settings": "AAMAAABkAAQAoAAAAAIAAAAA"})
        assert (answer.status, answer.body) == (200, b"[]")


@pytest.mark.parametrize("path", [TILE, ELSEWHERE])
def test_a_part_that_nobody_asked_for(path: str) -> None:
    """It isn't all of a tile, so it isn't judged, and is told of or refused."""
    part = reply(FAULTY, status="206 Partial Content", Content_Type=TILE_TYPE, Content_Range=f"bytes 0-{len(FAULTY) - 1}/{len(FAULTY)}")
    with upstream(lambda _: part) as server:
        for mode in ("refuse", "mend"):
            with proxy(server.url, "--mode", mode) as gate:
                answer = gate.get(path)
                assert (answer.status, answer.json()["unjudged"]) == (502, "upstream_cut")
        with proxy(server.url, "--mode", "report") as gate:
            answer = gate.get(path)
            assert (answer.status, answer.body, answer.headers["X-Tile-Fault"]) == (206, FAULTY, '{"unjudged":"upstream_cut"}')


def test_a_condition_on_a_picture_at_the_address_of_a_tile() -> None:
    """The server isn't asked for it, and so the proxy answers it."""
    picture = reply(b"png", Content_Type="image/png", ETag='"one"', Last_Modified=DATE)
    with upstream(lambda _: picture) as server, proxy(server.url, "--mode", "refuse") as gate:
        for condition in ({"If-None-Match": '"one"'}, {"If-Modified-Since": DATE}):
            answer = gate.get("/satellite/1/2/3", condition)
            assert (answer.status, answer.body, answer.headers["Etag"]) == (304, b"", '"one"')
        assert gate.get("/satellite/1/2/3", {"If-None-Match": '"two"'}).body == b"png"


@pytest.mark.parametrize("status", ["201 Created", "203 Non-Authoritative Information"])
def test_other_statuses_of_a_whole_tile_let_no_tile_by(status: str) -> None:
    with upstream(lambda _: reply(FAULTY, status=status, Content_Type=TILE_TYPE)) as server, proxy(server.url, "--mode", "refuse") as gate:
        assert gate.get(TILE).status == gate.get(ELSEWHERE).status == 500


@pytest.mark.parametrize("status", ["204 No Content", "404 Not Found", "403 Forbidden", "500 Internal Server Error", "503 Service Unavailable"])
def test_other_statuses_pass(status: str) -> None:
    body = b"" if status.startswith("204") else b"why"
    with upstream(lambda asked: reply(b"" if asked.method == "HEAD" else body, status=status, X_Own="kept")) as server, proxy(server.url, "--mode", "refuse") as gate:
        for method in ("GET", "HEAD"):
            answer = gate.get(TILE, method=method)
            assert (f"{answer.status}", answer.headers["X-Own"]) == (status[:3], "kept")
            assert answer.body == (body if method == "GET" else b"")


def redirected(gate: Proxy, path: str) -> str:
    return gate.get(path).headers["Location"]


def test_redirects_lead_to_the_proxy() -> None:
    def answer(asked: Asked) -> bytes:
        return reply(status="302 Found", Location=asked.headers["x-to"])

    with upstream(answer) as server, proxy(server.url + "/base/", "--mode", "refuse") as gate:
        for to, wanted in (
            (server.url + "/base/tiles/1?a=b#c", "/tiles/1?a=b#c"),
            (server.url + "/base", "/"),
            (server.url + "/baser", server.url + "/baser"),
            (server.url + "/base//evil.example/", "/evil.example/"),
            ("https://other.example/x", "https://other.example/x"),
            ("/tiles/1", "/tiles/1"),
        ):
            assert gate.get(TILE, {"X-To": to}).headers["Location"] == wanted, to
        assert server.asked[0].target == "/base" + TILE


def test_the_server_is_told_of_the_client() -> None:
    with upstream(lambda _: tile(VALID)) as server:
        with proxy(server.url) as gate:
            gate.get(TILE, {"Host": "tiles.example", "Connection": "X-Hop", "X-Hop": "1", "X-Kept": "2"})
            gate.get(TILE, {"Host": "inner", "X-Forwarded-Host": "tiles.example", "X-Forwarded-Proto": "https", "X-Forwarded-For": "10.0.0.1"})
        with proxy(server.url, "--host", "inner.example") as gate:
            gate.get(TILE, {"Host": "tiles.example"})
        first, second, third = (it.headers for it in server.asked)
        assert first["host"] == first["x-forwarded-host"] == "tiles.example" and first["x-forwarded-proto"] == "http"
        assert first["x-forwarded-for"] == "127.0.0.1" and "x-hop" not in first and first["x-kept"] == "2"
        assert (second["x-forwarded-host"], second["x-forwarded-proto"]) == ("tiles.example", "https")
        assert second["x-forwarded-for"] == "10.0.0.1, 127.0.0.1"
        assert (third["host"], third["x-forwarded-host"]) == ("inner.example", "tiles.example")


def test_connections_are_kept() -> None:
    with upstream(lambda _: tile(VALID)) as server, proxy(server.url, "--mode", "refuse") as gate, gate.connect() as client:
        reader = client.makefile("rb")
        for _ in range(50):
            client.sendall(b"GET /1/2/3.mvt HTTP/1.1\r\nHost: a\r\n\r\n")
            assert head_of(reader)[0].startswith(b"HTTP/1.1 200") and reader.read(len(VALID)) == VALID
        assert server.connections == 1


def test_which_answers_are_tiles() -> None:
    def answer(asked: Asked) -> bytes:
        declared = asked.headers.get("x-type")
        return reply(CUT, **({"Content_Type": declared} if declared else {}))

    with upstream(answer) as server, proxy(server.url, "--mode", "refuse", "--type", f"{TILE_TYPE}, application/x-own") as gate:
        for path, declared, is_tile in (
            (TILE, None, True),
            ("/data/v3/1/2/3.pbf", "application/x-protobuf", True),
            ("/streets/1/2/3", "application/x-protobuf", True),
            ("/1/2/3.mvt", "text/html", True),
            ("/1/2//3.mvt", None, True),
            ("/1/x/../2/3.mvt", None, True),
            ("/1/2/3%2Emvt", None, True),
            ("/satellite/1/2/3", "image/png", False),
            ("/1/2/3.png", "application/octet-stream", False),
            ("/fonts/Open%20Sans/0-255.pbf", "application/x-protobuf", False),
            ("/a", "Application/VND.mapbox-vector-tile; charset=x", True),
            ("/a", "application/x-own", True),
            ("/a", None, False),
            ("/1/2/3.mvt/metadata", "application/json", False),
        ):
            answer_ = gate.get(path, {"X-Type": declared} if declared else {})
            assert answer_.status == (500 if is_tile else 200), (path, declared)
    with upstream(answer) as server, proxy(server.url, "--mode", "refuse", "--path", "^/own/") as gate:
        assert [gate.get(it).status for it in ("/own/a", TILE)] == [500, 200]


def test_an_empty_tile_is_valid_unless_it_has_to_have_bytes() -> None:
    empty = {"/1/2/3": b"", "/1/2/4": gzip.compress(b"")}
    with upstream(lambda asked: tile(empty[asked.target], **({"Content_Encoding": "gzip"} if asked.target.endswith("4") else {}))) as server:
        with proxy(server.url, "--mode", "refuse") as gate:
            assert [gate.get(it).body for it in empty] == list(empty.values())
        with proxy(server.url, "--mode", "refuse", "--not-empty") as gate:
            for path in empty:
                answer = gate.get(path)
                assert (answer.status, answer.json()["unjudged"]) == (502, "empty")
