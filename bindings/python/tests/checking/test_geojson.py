"""mvtgate-check --geojson: the faults of tiles whose place is known, on the earth."""
from __future__ import annotations

import gzip
import json
import math
import pathlib
from typing import Any, Dict, List, Optional, Tuple

import pytest

from checking.runs import CROSSING, POINT, last_line, mbtiles, run
from conftest import TOP
from mvtgate.checking.geojson import address_of

FAULT, NO_KEY = CROSSING.read_bytes(), (TOP / "tiles/no_such_key.mvt").read_bytes()


def features(path: pathlib.Path) -> List[Dict[str, Any]]:
    found = json.loads(path.read_text())
    assert found["type"] == "FeatureCollection"
    listed: List[Dict[str, Any]] = found["features"]
    return listed


@pytest.mark.parametrize("jobs", [1, 2])
def test_files_and_archives(tmp_path: pathlib.Path, jobs: int) -> None:
    """A point where edges meet, and else the tile's box; a tile of another name isn't in it, which is told."""
    where = tmp_path / "tiles"
    (where / "5/16").mkdir(parents=True)
    (where / "5/16/10.mvt").write_bytes(FAULT)
    (where / "5/16/11.pbf.gz").write_bytes(gzip.compress(NO_KEY))
    (where / "5/16/12.pbf").write_bytes(POINT.read_bytes())
    (where / "other.mvt").write_bytes(FAULT)
    mbtiles(where / "z.mbtiles", {(3, 1, 2): NO_KEY})
    said = run("--geojson", tmp_path / "it.geojson", "--jobs", jobs, where)
    assert said.returncode == 1 and last_line(said) == "5 tiles: 1 valid, 4 with a fault"
    assert said.stderr.splitlines()[0] == f"1 fault of tiles whose names have no z/x/y, which aren't in {tmp_path / 'it.geojson'}"
    found = {it["properties"]["tile"]: it for it in features(tmp_path / "it.geojson")}
    assert sorted(found) == ["3/1/2", "5/16/10", "5/16/11"]
    # (the edges of the sample meet at (800/180, 800/180))
    x = y = 800 / 180 / 4096
    wanted = [(16 + x) / 32 * 360 - 180, math.degrees(math.atan(math.sinh(math.pi * (1 - 2 * (10 + y) / 32))))]
    point = found["5/16/10"]["geometry"]
    assert point["type"] == "Point" and all(abs(a - b) < 2e-9 for a, b in zip(point["coordinates"], wanted))
    [ring] = found["3/1/2"]["geometry"]["coordinates"]
    assert ring[0] == ring[4] == [-135.0, ring[0][1]] and ring[2][0] == -90.0
    assert found["5/16/11"]["properties"]["source"] == str(where / "5/16/11.pbf.gz") and found["5/16/11"]["properties"]["code"] == 302


def test_extent_of_0(tmp_path: pathlib.Path) -> None:
    """Where the layer says so there is no point, and the fault has its tile's box; any other extent counts as it is."""
    layer = b"\x78\x02\x0a\x01a\x12\x0f\x18\x03\x22\x0b\x09\x00\x10\x1a\x14\x0f\x00\x14\x13\x13\x0f"
    (tmp_path / "1/0").mkdir(parents=True)
    for row, extent in enumerate((b"\x28\x00", b"\x28\x0a")):
        (tmp_path / f"1/0/{row}.mvt").write_bytes(b"\x1a" + bytes([len(layer + extent)]) + layer + extent)
    said = run("--geojson", tmp_path / "it.geojson", tmp_path)
    assert said.returncode == 1, said.stderr
    box, point = (it["geometry"] for it in features(tmp_path / "it.geojson"))
    assert box["type"] == "Polygon" and box["coordinates"][0][0][0] == -180.0 and box["coordinates"][0][2][0] == 0.0
    # (the edges y = 8 - 4x/5 and y = x meet at (40/9, 40/9), of the tile in the south-west with a width of 10)
    wanted = [4 / 9 * 180 - 180, math.degrees(math.atan(math.sinh(-math.pi * 4 / 9)))]
    assert point["type"] == "Point" and all(abs(a - b) < 2e-9 for a, b in zip(point["coordinates"], wanted))


ADDRESSES: List[Tuple[str, Optional[str], Optional[Tuple[int, int, int]]]] = [
    ("5/16/10.mvt", None, (5, 16, 10)), ("/a/b/5/16/10.pbf.zst", None, (5, 16, 10)), ("tiles/5/16/10", None, (5, 16, 10)),
    ("v1/5/16/10.mvt.gz", None, (5, 16, 10)), ("2/5/16/10.mvt", None, (5, 16, 10)), ("it.mbtiles", "5/99/10", (5, 99, 10)),
    ("5/16/10.png", None, None), ("5/32/10.mvt", None, None), ("31/1/1.mvt", None, None), ("16/10.mvt", None, None),
    ("5/016/10.mvt", None, None), ("a5/16/10.mvt", None, None), ("-", None, None), ("5/16/10.mvt\n", None, None),
]  # fmt: skip


@pytest.mark.parametrize("file, place, wanted", ADDRESSES)
def test_addresses(file: str, place: Optional[str], wanted: Optional[Tuple[int, int, int]]) -> None:
    assert address_of(file, place) == wanted
