"""faults.geojson and rows.csv: where each fault is on the earth, and which rows of the data break how many tiles."""
from __future__ import annotations

import csv
import json
import math
import pathlib
import random
from fractions import Fraction
from typing import Any, Dict, List, Tuple

import pytest

from mvtgate.planet.geojson import Address, feature_text
from mvtgate.planet.mercator import bounds, box_of, lon_lat
from mvtgate.planet.records import Place
from mvtgate.planet.rows import Rows
from planet.helpers.made import MADE, block, layer
from planet.helpers.planets import Planet
from planet.helpers.runs import VALID, Run, Tile, records, run, write_database

HALF = math.degrees(math.atan(math.sinh(math.pi)))


def expect_feature(it: Dict[str, Any]) -> None:
    """What RFC 7946 asks of a feature whose geometry is a point or a polygon of one ring."""
    assert it["type"] == "Feature" and isinstance(it["properties"], dict) and set(it) == {"type", "geometry", "properties"}
    geometry = it["geometry"]
    ring: List[List[float]] = [geometry["coordinates"]] if geometry["type"] == "Point" else geometry["coordinates"][0]
    assert all(len(position) == 2 and -180 <= position[0] <= 180 and -90 <= position[1] <= 90 for position in ring)
    if geometry["type"] == "Polygon":
        assert len(geometry["coordinates"]) == 1 and ring[0] == ring[-1] and len(ring) == 5
        # (anticlockwise: twice the area, by the formula of Gauss, is positive)
        assert sum(a[0] * b[1] - b[0] * a[1] for a, b in zip(ring, ring[1:])) > 0


def features_of(path: pathlib.Path) -> List[Dict[str, Any]]:
    """The features of a collection, each of which is as the standard has it."""
    found = json.loads(path.read_text())
    assert found["type"] == "FeatureCollection" and set(found) == {"type", "features"}
    for it in found["features"]:
        expect_feature(it)
    features: List[Dict[str, Any]] = found["features"]
    return features


def on_earth(zoom: int, column: float, row: float) -> Tuple[float, float]:
    """Longitude and latitude, by the formulas of slippy maps."""
    count = 1 << zoom
    return column / count * 360 - 180, math.degrees(2 * math.atan(math.exp(math.pi * (1 - 2 * row / count))) - math.pi / 2)


def test_faults(planet: Planet, tmp_path: pathlib.Path, scheduler: str) -> None:
    """One for each line: a point where the fault has one, and else the tile's box."""
    it = run(tmp_path / "out", planet.path, "--scheduler", scheduler)
    lines, features = records(it.output / "faults.jsonl"), features_of(it.output / "faults.geojson")
    assert len(lines) == len(features) == len(planet.lines)
    for line, feature in zip(lines, features):
        zoom, column, row = line["zoom"], line["column"], line["row"]
        assert feature["properties"] == {
            "tile": f"{zoom}/{column}/{row}", "zoom": zoom, "column": column, "row": row, "layer": line["layer"],
            "feature_id": line["feature_id"], "code": line["fault"]["code"], "sentence": line["sentence"], "source": line["source"]}  # fmt: skip
        geometry, fault = feature["geometry"], line["fault"]
        if fault["code"] == 504:
            across, down = (int(fault[key]) / int(fault["w"]) / 4096 for key in ("x", "y"))
            wanted = [on_earth(zoom, column + across, row + down)]
            found = [geometry["coordinates"]]
        else:
            wanted = [on_earth(zoom, column + i, row + j) for i, j in ((0, 1), (1, 1), (1, 0), (0, 0), (0, 1))]
            found = geometry["coordinates"][0]
        assert all(abs(a - b) < 2e-9 for one, other in zip(found, wanted) for a, b in zip(one, other))


def test_all_faults(tmp_path: pathlib.Path, scheduler: str) -> None:
    """Those after the first have their own points. (The squares of the sample made by hand meet where MVT 2.1 has coordinates to 4096.)"""
    path = write_database(tmp_path / "tiles.mbtiles", [Tile(5, 2, 9, MADE)])
    it = run(tmp_path / "out", path, "--all", "--profile", "feature", "--scheduler", scheduler)
    lines, features = records(it.output / "faults.jsonl"), features_of(it.output / "faults.geojson")
    assert [it["properties"]["code"] for it in features] == [it["fault"]["code"] for it in lines]
    [meeting] = [it for it in features if it["properties"]["code"] == 504]
    corners = [on_earth(5, 2 + x / 4096, 9 + y / 4096) for x, y in ((10, 5), (5, 10))]
    assert any(max(abs(a - b) for a, b in zip(meeting["geometry"]["coordinates"], it)) < 2e-9 for it in corners)


def test_no_fault(tmp_path: pathlib.Path, scheduler: str) -> None:
    path = write_database(tmp_path / "tiles.mbtiles", [Tile(0, 0, 0, VALID)])
    it = run(tmp_path / "out", path, "--scheduler", scheduler)
    assert features_of(it.output / "faults.geojson") == []
    assert (it.output / "rows.csv").read_text().count("\n") == 1


def test_places_on_the_earth() -> None:
    assert lon_lat(0, 0, 0, 1, 1, 2) == (0.0, 0.0)
    assert box_of(0, 0, 0) == [-180.0, -round(HALF, 9), 180.0, round(HALF, 9)]
    assert lon_lat(3, 7, 0, 4096, 0, 4096) == (180.0, round(HALF, 9))
    # (in the buffer beyond the 180th degree, and of a tile far from the map)
    assert lon_lat(3, 7, 4, 4096 + 64, 0, 4096) == (-180 + 45 / 64, 0.0) and lon_lat(3, 0, 4, -64, 0, 4096) == (180 - 45 / 64, 0.0)
    assert lon_lat(1, 0, 2**40, 0, 0, 4096) == (-180.0, -90.0)


@pytest.mark.parametrize(
    ("zoom", "column", "least", "greatest", "wanted"),
    [
        # (with the buffer of 64 a layer of zoom 0 goes all around the earth, and more)
        (0, 0, -64, 4160, (-180.0, 180.0)), (0, 0, 0, 4096, (-180.0, 180.0)), (0, 0, -1, 4095, (-180.0, 180.0)),
        (0, 0, 1, 4095, (1 / 4096 * 360 - 180, 4095 / 4096 * 360 - 180)),
        # (from 1/4096 beyond the 180th degree to the other side of it, all but two units of the way around)
        (0, 0, -1, 4093, (180 - 360 / 4096, 4093 / 4096 * 360 - 180)), (0, 0, 4090, 4100, (4090 / 4096 * 360 - 180, 4 / 4096 * 360 - 180)),
        (1, 0, -64, 4160, (180 - 64 / 8192 * 360, 64 / 8192 * 360)), (1, 1, -64, 4160, (-64 / 8192 * 360, 64 / 8192 * 360 - 180)),
    ],
)  # fmt: skip
def test_bounds_around_the_earth(zoom: int, column: int, least: int, greatest: int, wanted: Tuple[float, float]) -> None:
    """West and east, of which west is the greater one across the 180th degree (RFC 7946 section 5.2)."""
    west, _, east, _ = bounds(zoom, column, 0, (least, 0, greatest, 1), 4096)
    assert abs(west - wanted[0]) < 1e-9 and abs(east - wanted[1]) < 1e-9


def test_points_between_positions() -> None:
    """The floats that are nearest to the exact degrees, by fractions: of points in tiles, on their sides and far outside."""
    source = random.Random(1)
    for _ in range(500):
        zoom, extent = source.randrange(25), source.choice([1, 512, 4096, source.randrange(1, 10**6)])
        column, row = source.randrange(1 << zoom), source.randrange(1 << zoom)
        x, y = (Fraction(source.randrange(-(10**9), 10**9), source.randrange(1, 10**5)) for _ in range(2))
        across, down = ((at + Fraction(it, extent)) / 2**zoom for at, it in ((column, x), (row, y)))
        turned = across if 0 <= across <= 1 else across - math.floor(across)
        latitude = math.degrees(math.atan(math.sinh(max(-50.0, min(50.0, math.pi * float(1 - 2 * down))))))
        assert lon_lat(zoom, column, row, x, y, extent) == (round(float(360 * turned - 180), 9), round(latitude, 9))


def test_numbers_that_readers_would_round() -> None:
    for identity, wanted in ((2**53 - 1, 2**53 - 1), (2**53, "9007199254740992"), (2**64 - 1, "18446744073709551615"), (None, None)):
        feature = json.loads(feature_text(Address(1, 0, 1), None, {"feature_id": identity}))
        assert feature["properties"]["feature_id"] == wanted and feature["properties"]["tile"] == "1/0/1"
        expect_feature(feature)


def rows_of(it: Run) -> List[Dict[str, str]]:
    with open(it.output / "rows.csv", newline="") as file:
        return list(csv.DictReader(file))


def crossing(name: str, *identities: int) -> bytes:
    """A layer with a bow of each of these ids."""
    bows = (block(2, b"\x08" + bytes([identity]) + b"\x18\x03\x22\x0b\x09\x00\x00\x1a\x14\x14\x00\x13\x13\x14\x0f") for identity in identities)
    return layer(name, 2, *bows)


def test_rows(tmp_path: pathlib.Path, scheduler: str) -> None:
    """By layer and id: those that break most tiles first, with their zooms."""
    tiles = [
        Tile(3, 1, 1, crossing("water", 7, 8)), Tile(4, 2, 2, crossing("water", 7)), Tile(4, 3, 2, crossing("water", 7, 7) + crossing('a "b",\nc', 8)),
        Tile(6, 1, 1, crossing("roads", 9)), Tile(6, 1, 2, layer("roads", 1)), Tile(6, 1, 3, VALID),
    ]  # fmt: skip
    path = write_database(tmp_path / "tiles.mbtiles", tiles)
    it = run(tmp_path / "out", path, "--all", "--scheduler", scheduler)
    found = rows_of(it)
    assert all(row["source"] == str(path) for row in found)
    assert [tuple(row[key] for key in ("layer", "feature_id", "tiles", "zooms", "first_zoom", "last_zoom", "faults", "first_tile")) for row in found] == [
        ("water", "7", "3", "2", "3", "4", "4", "3/1/1"), ('a "b",\nc', "8", "1", "1", "4", "4", "1", "4/3/2"),
        ("roads", "9", "1", "1", "6", "6", "1", "6/1/1"), ("water", "8", "1", "1", "3", "3", "1", "3/1/1"),
    ]  # fmt: skip
    html = (it.output / "report.html").read_text()
    assert "4 rows of the data are named" in html and "and 1 fault names none" in html


def test_rows_of_a_planet(planet: Planet, tmp_path: pathlib.Path, scheduler: str) -> None:
    """As the lines have them."""
    it = run(tmp_path / "out", planet.path, "--scheduler", scheduler)
    counted: Dict[Tuple[str, str], int] = {}
    for line in records(it.output / "faults.jsonl"):
        if line["layer"] is not None and line["feature_id"] is not None:
            key = (line["layer"], str(line["feature_id"]))
            counted[key] = counted.get(key, 0) + 1
    assert {(row["layer"], row["feature_id"]): int(row["tiles"]) for row in rows_of(it)} == counted


@pytest.mark.parametrize("identity", [0, 2**63, 2**64 - 1])
def test_ids_of_64_bits(identity: int) -> None:
    rows = Rows()
    rows.add(Place(0, 3, 1, 1), "", identity, 504)
    rows.add(Place(0, 5, 1, 1), "", identity, 501)
    rows.add(Place(0, 5, 1, 1), None, None, 101)
    [it] = rows.worst()
    assert (it.layer, it.feature_id, it.tiles, it.zooms, it.code, rows.nameless) == ("", identity, 2, [3, 5], 501, 1)

