"""Other formats that are taken for tiles: how they are known, what explain says then, and that no verdict depends on them."""
from __future__ import annotations

import gzip
import json
import pathlib
import sqlite3
import zlib
from typing import Dict, List

import pytest

import mvtgate
from conftest import SAMPLES, TOP
from mvtgate import Fault, Profile

WORDS = json.loads((TOP / "bindings/faults.json").read_text())["formats"]
TILE = (TOP / "tiles/point.mvt").read_bytes()
WIRE = Fault.from_text('{"at":0,"code":104,"field":3,"scope":"tile"}')

# bytes as programs write them, or as the formats' own specifications give their first ones
BYTES: Dict[str, List[bytes]] = {
    "gzip": [gzip.compress(TILE, level) for level in (1, 6, 9)],
    "zlib": [zlib.compress(TILE, level) for level in (0, 1, 2, 5, 6, 9)],
    "zstd": [b"\x28\xb5\x2f\xfd\x04\x00"],
    "pmtiles": [b"PMTiles\x03", b"PMTiles"],
    "png": [b"\x89PNG\r\n\x1a\n\x00\x00\x00\rIHDR"],
    "json": [json.dumps(it, indent=1).encode() for it in ({"type": "FeatureCollection"}, [1])]
    + [b"\xef\xbb\xbf{}", b" \t\r\n{}", b"\xef\xbb\xbf\n []", b" " * 1023 + b"{"],
}
OTHERS = [b"", b"\x1f", b"\x78", b"\x78\x02\x0a", b"\x78\xbb", b"PNG", b"SQLite format 3", b"PMTile", b"\x89PNG\r\n\x1a", b"<html>", b"  ", b" " * 1024 + b"{"]


def database(path: pathlib.Path) -> bytes:
    with sqlite3.connect(path) as it:
        it.execute("CREATE TABLE tiles (zoom_level, tile_column, tile_row, tile_data)")
    it.close()
    return path.read_bytes()


def test_bytes_of_formats(tmp_path: pathlib.Path) -> None:
    known = {**BYTES, "sqlite": [database(tmp_path / "some.mbtiles")]}
    assert set(known) == set(WORDS)
    for name, each in known.items():
        for tile in each:
            found = mvtgate.format_of(WIRE, tile)
            assert found is not None and found.name == name, tile[:16]
            assert [found.title, found.sentence, found.remedy] == [WORDS[name][key] for key in ("title", "sentence", "remedy")]


@pytest.mark.parametrize("tile", OTHERS, ids=lambda it: str(bytes(it[:16])))
def test_bytes_of_none(tile: bytes) -> None:
    assert mvtgate.format_of(WIRE, tile) is None


@pytest.mark.parametrize("kind", [bytearray, memoryview], ids=lambda it: str(it.__name__))
def test_kinds_of_bytes(kind: type) -> None:
    found = mvtgate.format_of(WIRE, kind(gzip.compress(TILE)))
    assert found is not None and found.name == "gzip"
    with pytest.raises(TypeError):
        mvtgate.format_of(WIRE, "text")  # type: ignore[arg-type]


def test_other_faults_name_no_format() -> None:
    for text in ('{"code":201,"layer":0}', '{"code":501,"feature":0,"layer":0,"ring":0}'):
        assert mvtgate.format_of(Fault.from_text(text), gzip.compress(TILE)) is None


def test_samples_are_of_no_format() -> None:
    for it in SAMPLES:
        fault = mvtgate.check(it.tile, Profile.POLYGON)
        assert fault is None or it.path.parent != TOP / "tiles" or mvtgate.format_of(fault, it.tile) is None, it.path


def test_explain_names_the_format() -> None:
    packed = gzip.compress(TILE)
    fault = mvtgate.check(packed)
    assert fault is not None and fault.code == 104
    plain, named = mvtgate.explain(fault).splitlines(), mvtgate.explain(fault, packed).splitlines()
    assert named[:2] + named[4:] == plain[:2] + plain[4:] and len(named) == 5
    assert named[2:4] == [WORDS["gzip"]["sentence"], f"What to do: {WORDS['gzip']['remedy']}"]
    cut = TILE[:-1]
    fault = mvtgate.check(cut)
    assert fault is not None and mvtgate.explain(fault, cut) == mvtgate.explain(fault)


@pytest.mark.parametrize("tile", [gzip.compress(TILE), BYTES["png"][0], BYTES["pmtiles"][0], BYTES["json"][0]], ids=["gzip", "png", "pmtiles", "json"])
def test_the_fault_stays(tile: bytes) -> None:
    fault = mvtgate.check(tile)
    assert fault is not None and fault.code <= 111 and mvtgate.confirm(tile, fault)
    assert mvtgate.format_of(fault, tile) is not None


def test_explain_of_nothing() -> None:
    with pytest.raises(TypeError, match="not NoneType: a valid tile, for which check gives None, has nothing to explain"):
        mvtgate.explain(mvtgate.check(TILE))  # type: ignore[arg-type]
    with pytest.raises(TypeError, match="a mvtgate.Fault or a mvtgate.Advice, not str"):
        mvtgate.explain("104")  # type: ignore[arg-type]
