"""What features draw, however their numbers are encoded, and where that is: also in layers whose extent is 0."""
from __future__ import annotations

import json
import math
from typing import Any, Dict, List, Optional, Tuple

import pytest

from conftest import varint
from mvtgate import Fault, Profile
from mvtgate.planet.geojson import Address, point_of
from mvtgate.planet.geometry import box_of, rings_of
from mvtgate.planet.mending.changes import Change
from mvtgate.planet.mending.tiles import Mending, changes_in, mend
from mvtgate.planet.names import Names
from mvtgate.planet.records import Place
from planet.helpers.made import block

# a square of 10, and a ring from (0, 8) to (10, 0), (10, 10) and (0, 0), of which the edges y = 8 - 4x/5 and y = x cross at (40/9, 40/9)
# (MVT 2.1 section 4.3: a MoveTo, a LineTo of three, and a ClosePath)
SQUARE = [9, 0, 0, 26, 20, 0, 0, 20, 19, 0, 15]
CROSSING = [9, 0, 16, 26, 20, 15, 0, 20, 19, 19, 15]
# a field that no feature has
OTHER = b"\x30\x07"


def packed(numbers: List[int]) -> bytes:
    """A field of the geometry with these numbers."""
    return block(4, b"".join(map(varint, numbers)))


def single(numbers: List[int]) -> bytes:
    """A field of the geometry for each of them."""
    return b"".join(b"\x20" + varint(it) for it in numbers)


def encodings(numbers: List[int]) -> Dict[str, bytes]:
    """The same list of numbers, as each reader of Protocol Buffers has to take it."""
    return {
        "packed": packed(numbers),
        "two packed": packed(numbers[:2]) + packed(numbers[2:]),
        "single": single(numbers),
        "packed and single": packed(numbers[:5]) + single(numbers[5:7]) + packed(numbers[7:]),
        "apart, and with none between": OTHER + single(numbers[:1]) + packed([]) + OTHER + packed(numbers[1:4]) + packed([]) + single(numbers[4:]),
    }


@pytest.mark.parametrize("encoding", encodings(SQUARE))
def test_encodings(encoding: str) -> None:
    feature = memoryview(encodings(SQUARE)[encoding])
    assert rings_of(feature) == [[(0, 0), (10, 0), (10, 10), (0, 10)]] and box_of(feature) == (0, 0, 10, 10)


def test_no_position() -> None:
    for feature in (b"", OTHER, packed([]), packed([9]), single([9, 0])):
        assert rings_of(memoryview(feature)) == [] and box_of(memoryview(feature)) is None


def test_numbers_that_are_cut() -> None:
    """Nothing behind one is taken for what would stand there."""
    cut = block(4, b"".join(map(varint, SQUARE[:6])) + b"\x80") + single(SQUARE[6:])
    assert rings_of(memoryview(cut)) == [[(0, 0), (10, 0)]]


def tile(geometry: bytes, extent: Optional[int]) -> bytes:
    """A polygon in a layer."""
    of_layer = b"" if extent is None else b"\x28" + varint(extent)
    return block(3, b"\x78\x02" + block(1, b"water") + block(2, b"\x08\x07\x18\x03" + geometry) + of_layer)


def on_earth(zoom: int, column: float, row: float) -> Tuple[float, float]:
    """Longitude and latitude, by the formulas of slippy maps."""
    count = 1 << zoom
    return column / count * 360 - 180, math.degrees(2 * math.atan(math.exp(math.pi * (1 - 2 * row / count))) - math.pi / 2)


def changed(stored: bytes) -> Tuple[Mending, Dict[str, Any]]:
    """What became of a tile at 3/1/2, of which one feature is mended, and the line of that."""
    mending, data = mend(Profile.POLYGON, False, Address(3, 1, 2), stored, stored)
    [line] = changes_in(data[mending.size :])
    return mending, line


@pytest.mark.parametrize("encoding", encodings(CROSSING))
@pytest.mark.parametrize("extent, size", [(None, 4096), (512, 512), (2**32 - 1, 2**32 - 1)])
def test_bounds(encoding: str, extent: Optional[int], size: int) -> None:
    """Those of the corners (0, 0) and (10, 10)."""
    _, line = changed(tile(encodings(CROSSING)[encoding], extent))
    (west, south), (east, north) = on_earth(3, 1, 2 + 10 / size), on_earth(3, 1 + 10 / size, 2)
    assert all(abs(one - other) < 2e-9 for one, other in zip(line["bounds"], (west, south, east, north)))
    assert line["extent"] == size


def test_extent_of_0() -> None:
    """Nothing of such a layer is anywhere on the earth, and no change is a share of its tile."""
    stored = tile(packed(CROSSING), 0)
    mending, line = changed(stored)
    assert line["extent"] == 0 and line["bounds"] is None and line["area_after"] > line["area_before"]
    assert Change(Place(0, 3, 1, 2), line, mending).share == 0
    fault = Fault.from_text(json.dumps({
        "code": 504, "feature": 0, "first": {"edge": 0, "ring": 0}, "layer": 0, "polygon": 0, "second": {"edge": 2, "ring": 0},
        "w": "9", "x": "40", "y": "40"}))  # fmt: skip
    subject = Names(stored).subject_of(fault)
    assert (subject.layer, subject.feature_id, subject.extent) == ("water", 7, 0)
    assert point_of(fault.members, Address(3, 1, 2), subject) is None
    # (a layer without an extent has 4096)
    point = point_of(fault.members, Address(3, 1, 2), Names(tile(packed(CROSSING), None)).subject_of(fault))
    assert point is not None and all(abs(a - b) < 2e-9 for a, b in zip(point, on_earth(3, 1 + 40 / 9 / 4096, 2 + 40 / 9 / 4096)))
