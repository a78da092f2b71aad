"""In front of the examples' map server over PostGIS, which sends its tiles without a gate of its own."""
from __future__ import annotations

import gzip
import sys
from typing import Iterator

import mvtgate
import pytest

from running import TOP, Proxy, ask, proxy

sys.path.insert(0, str(TOP / "examples/tile_server/tests"))


@pytest.fixture(scope="module")
def server() -> Iterator[str]:
    """The server's URL. Its own module of running is read under another name."""
    import importlib.util

    path = TOP / "examples/tile_server/tests/running.py"
    found = importlib.util.spec_from_file_location("running_of_tile_server", path)
    assert found and found.loader
    theirs = importlib.util.module_from_spec(found)
    sys.modules[found.name] = theirs
    found.loader.exec_module(theirs)
    with theirs.map_database() as database, theirs.tile_server(database.dsn, "--no-gate") as made:
        yield made.address


def tile_of(gate: Proxy, column: int) -> bytes:
    answer = gate.get(f"/tiles/6/{column}/20.mvt", {"Accept-Encoding": "gzip"})
    assert answer.status == 200 and answer.headers["Content-Encoding"] == "gzip"
    return gzip.decompress(answer.body)


def test_its_tiles_are_judged_by_each_mode(server: str) -> None:
    with proxy(server, "--mode", "refuse", "--exact") as refusing, proxy(server, "--exact") as reporting, proxy(server, "--mode", "mend") as mending:
        verdicts = set()
        for column in range(9):
            path = f"/tiles/6/{column}/20.mvt"
            reported = tile_of(reporting, column)
            fault = mvtgate.check(reported)
            verdicts.add(fault.code if fault else None)
            refused, mended = refusing.get(path), mending.get(path)
            if fault is None:
                assert refused.status == mended.status == 200 and refused.body == mended.body == reported
                continue
            assert refused.status == 500 and refused.json()["fault"] == fault.members
            if mended.status == 200:
                assert mvtgate.check(mended.body) is None and mended.headers["X-Tile-Mended"] == str(fault.code)
            else:
                # (a fault that isn't of polygons)
                assert mended.status == 500 and fault.code == 304
        assert {None, 504, 304} <= verdicts
        assert refusing.metric('faults_total{answer="refused",code="504",layer="areas"}') > 0


def test_what_is_no_tile_is_as_the_server_sends_it(server: str) -> None:
    from running import address_of

    with proxy(server, "--mode", "refuse") as gate:
        for path, status in (("/tiles.json", 200), ("/tiles/6/30/20.mvt", 204), ("/tiles/99/0/0.mvt", 404)):
            here, there = gate.get(path, {"Host": "a"}), ask(address_of(server.partition("//")[2]), path, {"Host": "a"})
            assert (here.status, here.body) == (there.status, there.body) and here.status == status
        tagged = gate.get("/tiles/6/0/20.mvt")
        again = gate.get("/tiles/6/0/20.mvt", {"If-None-Match": tagged.headers["Etag"]})
        assert (again.status, again.body) == (304, b"") and gate.get("/tiles/6/0/20.mvt", method="HEAD").headers["Etag"] == tagged.headers["Etag"]
