"""The database and the servers that the tests share, and how tiles, faults and metrics are read."""
from __future__ import annotations

import contextlib
import gzip
import json
import pathlib
import tempfile
import time
from fractions import Fraction
from typing import Any, Callable, Dict, Iterable, Iterator, List, Optional, Set, Tuple

import mvtgate
import pytest
from mvtgate import Fault, Profile
from mvtgate._dump import Feature, Layer
from prometheus_client import Metric
from prometheus_client.parser import text_string_to_metric_families

from running import SECONDS, Database, Reply, Server, map_database, tile_server

# the columns of the tiles of tables.sql
FIELD, CLOSE_PONDS, COMMON_CORNER, CLOSE_TO_EDGE, LOOP, TWO_NAMES, NECK, OVERLAP, TWO_CORNERS, GARDEN = range(10)
PONDS, PLACES, MILESTONES, NOTHING = 20, 24, 26, 30
PLAIN: Dict[str, str] = {}
GZIP = {"Accept-Encoding": "gzip"}

# programs for `python3 -c` that are the server, whose gate gets no memory; the second for exact verdicts alone, the third for mending
OUT_OF_MEMORY = """
import sys
from mvtgate import _library
from tile_server.__main__ import main
check = _library.check
def refused(profile, tile, is_quick):
    if is_quick:
        raise MemoryError("mvtgate: out of memory")
    return check(profile, tile, is_quick)
_library.check = refused
sys.exit(main())
"""
EXACT_OUT_OF_MEMORY = OUT_OF_MEMORY.replace("if is_quick", "if not is_quick")
MEND_OUT_OF_MEMORY = OUT_OF_MEMORY.replace("if is_quick", "if True").replace("_library.check", "_library.mend")

# The first fault of each tile, as the comments of tables.sql reason: its code, where it is, and for edges that meet the point.
Expected = Tuple[int, str, Optional[Tuple[int, int]]]
FIRST: Dict[int, Expected] = {
    CLOSE_PONDS: (504, "layer 0, feature 1, polygon 0", (400, 400)),
    COMMON_CORNER: (504, "layer 0, feature 0, polygon 0", (400, 400)),
    CLOSE_TO_EDGE: (504, "layer 0, feature 0, polygon 0", (100, 500)),
    LOOP: (504, "layer 0, feature 0, polygon 0", (400, 100)),
    TWO_NAMES: (304, "layer 0, feature 0", None),
}
# the id of the row at fault
ROW = {CLOSE_PONDS: 111, COMMON_CORNER: 120, CLOSE_TO_EDGE: 130, LOOP: 140, TWO_NAMES: 150}


@pytest.fixture(scope="session")
def database() -> Iterator[Database]:
    """The example's database, in which no test changes anything for good."""
    with map_database() as made:
        yield made


@pytest.fixture(scope="session")
def kept() -> Iterator[pathlib.Path]:
    """Where the server that mends nothing leaves faulty tiles."""
    with tempfile.TemporaryDirectory(prefix="tile_server.") as folder:
        yield pathlib.Path(folder)


@pytest.fixture(scope="session")
def server(database: Database, kept: pathlib.Path) -> Iterator[Server]:
    """The server by the profile `polygon`, which mends nothing. A query may wait for a lock as long as a test holds it."""
    with tile_server(database.dsn, "--keep", str(kept), "--query-seconds", str(SECONDS)) as running:
        yield running


@pytest.fixture(scope="session")
def ungated(database: Database) -> Iterator[Server]:
    """The server before it had a gate."""
    with tile_server(database.dsn, "--no-gate") as running:
        yield running


@contextlib.contextmanager
def locked_areas(database: Database) -> Iterator[None]:
    """Meanwhile each query for a tile waits."""
    with database.transaction() as cursor:
        cursor.execute("LOCK TABLE areas IN ACCESS EXCLUSIVE MODE")
        yield


def wait_for(holds: Callable[[], bool]) -> None:
    """Waits until this holds."""
    end = time.monotonic() + SECONDS
    while not holds():
        assert time.monotonic() < end
        time.sleep(0.02)


def waits_for(database: Database, queries: int) -> None:
    """Waits until so many queries wait for a lock."""
    wait_for(lambda: database.number("SELECT count(*) FROM pg_locks WHERE NOT granted") >= queries)


def families(server: Server) -> Iterable[Metric]:
    """What /metrics has, as the parser of Prometheus' own package reads it."""
    read: Iterable[Metric] = text_string_to_metric_families(server.get("/metrics").body.decode())  # type: ignore[no-untyped-call]
    return read


def samples(server: Server, name: str) -> Dict[Tuple[str, ...], float]:
    """The values of a metric by those of its labels, in the order of the labels' names."""
    found = [it for family in families(server) for it in family.samples if it.name == name]
    return {tuple(value for _, value in sorted(it.labels.items())): it.value for it in found}


def expect_fault(fault: Fault, wanted: Expected) -> None:
    """Holds a fault against the one that is expected."""
    code, place, point = wanted
    assert fault.code == code and fault.place.startswith(place)
    assert fault.point == (None if point is None else tuple(map(Fraction, point)))


def expect_told(told: Dict[str, Any], wanted: Expected) -> Fault:
    """What an answer says of a fault, and the fault."""
    fault = Fault.from_text(json.dumps(told["fault"]))
    expect_fault(fault, wanted)
    assert (told["code"], told["place"]) == (fault.code, fault.place)
    words = told["explanation"]
    assert words[0] == f"{fault.code}: {told['title']}"
    assert any(it.startswith("Cause: ") for it in words) and any(it.startswith("What to do: ") for it in words)
    return fault


def expect_refusal(answer: Reply, column: int) -> Dict[str, Any]:
    """What a refusal says. No cache may keep it, and no client takes it for what it has."""
    assert answer.status == 500
    assert answer.headers["Cache-Control"] == "no-store" and "Etag" not in answer.headers
    assert answer.headers["Content-Type"] == "application/json; charset=utf-8"
    told = answer.json()
    assert told["error"] == "the tile did not pass the gate" and told["tile"] == {"z": 6, "x": column, "y": 20}
    return told


def lines_of(server: Server, column: int) -> List[str]:
    """The lines of the log about a tile."""
    return [it for it in server.log().splitlines() if f" tile 6/{column}/20 " in it]


def expect_later(answer: Reply, error: str) -> None:
    """An answer that says to ask again later, and that no cache may keep."""
    assert (answer.status, answer.json()["error"]) == (503, error)
    assert answer.headers["Cache-Control"] == "no-store" and int(answer.headers["Retry-After"]) > 0


def judged(reply: Reply, profile: Profile = Profile.POLYGON) -> Dict[str, Layer]:
    """The layers of an answer with a tile, by name. The tile has to be valid."""
    assert reply.status == 200 and reply.headers["Content-Type"] == "application/vnd.mapbox-vector-tile"
    assert reply.headers["Cache-Control"] == "public, max-age=300"
    tile = gzip.decompress(reply.body) if reply.headers.get("Content-Encoding") == "gzip" else reply.body
    assert mvtgate.check(tile, profile) is None
    layers = mvtgate.dump(tile)["layers"]
    return {it["name"]: it for it in layers}


def paths_of(feature: Feature) -> List[List[Tuple[int, int]]]:
    """The positions of each ring of a polygon feature in their order. It has MoveTo, LineTo and ClosePath for each."""
    paths: List[List[Tuple[int, int]]] = []
    numbers, x, y = iter(feature["geometry"]), 0, 0
    for command in numbers:
        if command & 7 == 1:
            paths.append([])
        for _ in range(0 if command & 7 == 7 else command >> 3):
            x, y = x + unsigned(next(numbers)), y + unsigned(next(numbers))
            paths[-1].append((x, y))
    return paths


def rings_of(feature: Feature) -> List[Set[Tuple[int, int]]]:
    """The positions of each ring of a polygon feature."""
    return [set(it) for it in paths_of(feature)]


def area_of(feature: Feature) -> float:
    """The area of a polygon feature by its rings, of which holes are wound the other way round than exteriors."""
    pairs = (pair for ring in paths_of(feature) for pair in zip(ring, ring[1:] + ring[:1]))
    return sum(x * v - u * y for (x, y), (u, v) in pairs) / 2


def without_rings(layer: Layer, numbers: Set[int]) -> Layer:
    """What a layer has but for the geometries of these features."""
    copy = layer.copy()
    copy["features"] = [it.copy() for it in layer["features"]]
    for number in numbers:
        copy["features"][number]["geometry"] = []
    return copy


def unsigned(number: int) -> int:
    """The signed number of a parameter's zigzag form."""
    return number >> 1 ^ -(number & 1)


def rectangle(left: int, top: int, right: int, bottom: int) -> Set[Tuple[int, int]]:
    """The positions of a rectangle."""
    return {(left, top), (right, top), (right, bottom), (left, bottom)}


def tags_of(layer: Layer, number: int) -> Dict[str, object]:
    """The tags of a feature, with their values."""
    tags = layer["features"][number]["tags"]
    return {layer["keys"][key]: next(iter(layer["values"][value].values())) for key, value in zip(tags[::2], tags[1::2])}
