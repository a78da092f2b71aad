"""Every sample tile: its verdict by both profiles, the checker's answer, its dump and its advice."""
from __future__ import annotations

import json
import pathlib
from typing import Any, Dict, List

import pytest

import mvtgate
from conftest import SAMPLES, TOP, YES, Sample, check_line, load
from mvtgate import Advice, Profile

reader = load(TOP / "tiles/check_folder")
# (of a folder the lines by one profile may not be given)
EACH_PROFILE = [(it, profile) for it in SAMPLES for profile in it.lines]
each_sample = pytest.mark.parametrize("sample", SAMPLES, ids=lambda it: str(it.path.stem))


def test_samples_are_there() -> None:
    assert len(SAMPLES) > 100


@pytest.mark.parametrize("sample, profile", EACH_PROFILE, ids=lambda it: it.name.lower() if isinstance(it, Profile) else str(it.path.stem))
def test_check_and_confirm(sample: Sample, profile: Profile) -> None:
    fault = mvtgate.check(sample.tile, profile)
    assert (YES if fault is None else fault.text) in sample.lines[profile]
    if fault is None:
        return
    assert mvtgate.confirm(sample.tile, fault, profile)
    assert mvtgate.confirm(sample.tile, f" {fault.text}\n", profile)
    assert not mvtgate.confirm(b"\x1a\x05\x78\x02\x0a\x01a", fault, profile)
    assert mvtgate.Fault.from_text(fault.text) == fault
    assert fault.members == json.loads(fault.text)


@pytest.mark.parametrize("path", sorted((TOP / "tiles/expected").glob("*.fields")), ids=lambda it: str(it.stem))
def test_reader_of_outermost_fields(path: pathlib.Path) -> None:
    """That of tiles/check_folder, by which the program's are compared where no line is given."""
    tile, line = (TOP / f"tiles/{path.stem}.mvt").read_bytes(), path.read_text().removesuffix("\n")
    if line.startswith('{"fields":'):
        assert reader.outermost(tile) == line
        return
    with pytest.raises(ValueError):
        reader.outermost(tile)


def test_reader_without_a_line_of_advice(tmp_path: pathlib.Path) -> None:
    """It says so of the tile, and goes on with the others."""
    assert "advice can't be read" in reader.wrong_advice(tmp_path / "none.mvt", YES, [])
    (tmp_path / "other.json").write_text('{"check":[]}')
    assert "advice can't be read" in reader.wrong_advice(tmp_path / "other.mvt", YES, [])


@each_sample
def test_dump(sample: Sample) -> None:
    if sample.is_tile:
        assert mvtgate.dump(sample.tile) == json.loads(sample.dump or reader.dump_of(sample.tile))
        return
    with pytest.raises(mvtgate.NotATile) as raised:
        mvtgate.dump(sample.tile)
    assert raised.value.fault.text == sample.lines[Profile.POLYGON][0]


def repetitions(kind: str, layer: int, things: List[Any]) -> List[Advice]:
    return [Advice(kind, layer, things.index(it), at) for at, it in enumerate(things) if it is not None and it in things[:at]]


def advice_of(tile: Dict[str, Any]) -> List[Advice]:
    """The advice on a record, by its definition in docs/SPECIFICATION.md."""
    found = [] if tile["layers"] else [Advice("no_layer")]
    for number, layer in enumerate(tile["layers"]):
        found += [] if layer["features"] else [Advice("no_feature", number)]
        found += repetitions("equal_key", number, layer["keys"])
        found += repetitions("equal_id", number, [it["id"] for it in layer["features"]])
    return found


@each_sample
def test_advice(sample: Sample) -> None:
    if sample.is_tile:
        told = [Advice(**it) for it in json.loads(sample.advice)["advice"]] if sample.advice else None
        expected = advice_of(json.loads(reader.dump_of(sample.tile))) if told is None else told
        assert mvtgate.advise(sample.tile) == expected
        return
    with pytest.raises(mvtgate.NotATile) as raised:
        mvtgate.advise(sample.tile)
    assert raised.value.fault.text == sample.lines[Profile.POLYGON][0]


def test_advice_of_equal_ids() -> None:
    feature = b"\x12\x09\x08\x07\x18\x01\x22\x03\x09\x32\x22"
    layer = b"\x78\x02\x0a\x01a" + 3 * feature
    tile = b"\x1a" + bytes([len(layer)]) + layer
    assert check_line(tile) == YES
    assert mvtgate.advise(tile) == [Advice("equal_id", 0, 0, 1), Advice("equal_id", 0, 0, 2)]


def test_long_dump() -> None:
    """A dump that has no room in the first call's."""
    name = b"n" * 100
    layer = b"\x78\x02\x0a\x64" + name + b"".join(b"\x1a\x03" + b"%03d" % it for it in range(900))
    tile = b"\x1a" + bytes([len(layer) & 127 | 128, len(layer) >> 7]) + layer
    assert mvtgate.dump(tile)["layers"][0]["keys"] == [f"{it:03}" for it in range(900)]
