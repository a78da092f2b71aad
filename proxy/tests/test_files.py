"""In front of nginx with the sample tiles: each verdict by both profiles, and every byte and header of what is sent."""
from __future__ import annotations

import gzip
import json
from typing import List

import pytest

from conftest import NAMES, VALID, path_of
from running import TILES, Reply, address_of, ask, proxy, sample
from upstream import tile, upstream

YES = '{"ok":true}'
# what nginx and this proxy say each for themselves
OWN = {"Date", "Connection"}


def lines_of(name: str, profile: str) -> List[str]:
    of_feature = TILES / f"expected/{name}.check_feature"
    path = of_feature if profile == "feature" and of_feature.exists() else TILES / f"expected/{name}.check"
    return path.read_text().splitlines()


def direct(files: str, path: str) -> Reply:
    return ask(address_of(files.partition("//")[2]), path)


def are_same(one: Reply, other: Reply) -> bool:
    headers = [{name: value for name, value in it.headers.items() if name not in OWN} for it in (one, other)]
    return (one.status, headers[0], one.body) == (other.status, headers[1], other.body)


@pytest.mark.parametrize("profile", ["polygon", "feature"])
@pytest.mark.parametrize("folder", ["", "/packed"])
def test_each_sample_is_sent_as_it_is_or_refused_with_its_fault(files: str, profile: str, folder: str) -> None:
    encoding = {"Accept-Encoding": "gzip"} if folder else {}
    with proxy(files, "--mode", "refuse", "--profile", profile, "--exact", "--log-lines", "1000000") as gate:
        for name in NAMES:
            reply, expected = gate.get(folder + path_of(name), encoding), lines_of(name, profile)
            if reply.status == 200:
                body = gzip.decompress(reply.body) if folder else reply.body
                assert YES in expected and body == sample(name), name
                continue
            assert reply.status == 500 and reply.headers["Cache-Control"] == "no-store", name
            told = reply.json()
            text = json.dumps(told["fault"], sort_keys=True, separators=(",", ":"))
            assert text in expected and reply.headers["X-Tile-Fault"] == text, name
            assert told["address"] == folder + path_of(name) and len(told["explanation"]) == 5
        logged = gate.lines("fault")
        assert len(logged) == sum(YES not in lines_of(it, profile) for it in NAMES)


def test_a_good_tile_has_all_headers_of_the_server(files: str) -> None:
    path = path_of("polygon")
    with proxy(files, "--mode", "refuse") as gate:
        reply = gate.get(path)
        assert are_same(reply, direct(files, path)) and reply.body == VALID


def test_report_sends_faulty_tiles_to_the_byte(files: str) -> None:
    with proxy(files, "--exact") as gate:
        for name in NAMES:
            path = path_of(name)
            reply, wanted = gate.get(path), direct(files, path)
            fault = reply.headers.get("X-Tile-Fault", YES)
            headers = {key: value for key, value in reply.headers.items() if key != "X-Tile-Fault"}
            assert fault in lines_of(name, "polygon"), name
            assert are_same(Reply(reply.status, headers, reply.body), wanted), name


def test_mend_sends_valid_tiles_packed_as_they_were(files: str) -> None:
    encoding = {"Accept-Encoding": "gzip"}
    with proxy(files, "--mode", "mend") as gate, proxy(files, "--mode", "refuse", "--exact") as judge:
        reply = gate.get("/packed" + path_of("crossing_edges"), encoding)
        first = judge.get("/packed" + path_of("crossing_edges"), encoding)
        assert first.status == 500 and reply.status == 200
        assert reply.headers["X-Tile-Mended"] == str(first.json()["code"]) == "504"
        assert reply.headers["Content-Encoding"] == "gzip" and "Last-Modified" not in reply.headers
        again = gate.get("/packed" + path_of("crossing_edges"), {**encoding, "If-None-Match": reply.headers["Etag"]})
        assert (again.status, again.body, again.headers["Etag"]) == (304, b"", reply.headers["Etag"])
        refused = gate.get(path_of("cut_geometry"))
        assert refused.status == 500 and refused.json()["code"] == 101
        kept = gzip.decompress(reply.body)
    assert kept != sample("crossing_edges")
    with upstream(lambda _: tile(kept)) as server, proxy(server.url, "--mode", "refuse", "--exact") as judge:
        assert judge.get("/1/2/3.mvt").body == kept


def test_other_content_is_as_the_server_sends_it(files: str) -> None:
    with proxy(files, "--mode", "refuse") as gate:
        assert are_same(gate.get("/page/index.html"), direct(files, "/page/index.html"))
        part = gate.get("/page/index.html", {"Range": "bytes=1-4"})
        assert (part.status, part.body) == (206, b"html")
        tag = part.headers["Etag"]
        assert gate.get("/page/index.html", {"If-None-Match": tag}).status == 304
        assert gate.get("/none").status == 404
        redirect = gate.get("/page")
        assert redirect.status == 301 and redirect.headers["Location"].endswith("/page/")
        metrics = gate.metrics()
    assert not any(name.startswith("mvtgate_proxy_tiles_total") and value for name, value in metrics.items())
