"""Names of layers and ids of features, out of tiles and of bytes that are none; and how stored bytes are unpacked."""
from __future__ import annotations

import gzip
import json
import os
import time
import zlib
from typing import Any, Optional, Tuple

import pytest

from conftest import SAMPLES, Sample, varint
from mvtgate import Fault, Profile
from mvtgate._files import LIMIT
from mvtgate.planet.names import Names
from mvtgate.planet.unpack import NotUnpacked, unpacked
from planet.helpers.planets import names_by_reader

FAULTY = [(it, line) for it in SAMPLES for line in it.lines[Profile.POLYGON] if line != '{"ok":true}']


@pytest.mark.parametrize("sample, line", [it for it in FAULTY if it[0].is_tile], ids=lambda it: "" if isinstance(it, str) else it.path.stem)
def test_samples(sample: Sample, line: str) -> None:
    assert names_of(sample.tile, Fault.from_text(line)) == names_by_reader(sample.tile, line)


def names_of(tile: bytes, fault: Fault) -> Tuple[Optional[str], Optional[int]]:
    subject = Names(tile).subject_of(fault)
    return subject.layer, subject.feature_id


def message(number: int, payload: bytes) -> bytes:
    return varint(number << 3 | 2) + varint(len(payload)) + payload


def number(field: int, value: int) -> bytes:
    return varint(field << 3) + varint(value)


def wire(**members: Any) -> Fault:
    return Fault.from_text(json.dumps({"at": 0, "code": 101, "field": 4, **members}))


LAYER = message(1, b"roads") + message(2, number(1, 5)) + message(2, number(1, 2**64 - 1) + b"\x22\x05")
OTHER = message(2, b"") + message(15, b"x") + b"\x79" + bytes(8) + b"\x7d" + bytes(4)
TILE = number(9, 1) + message(3, LAYER) + message(3, OTHER) + b"\x1a\x7f\x0a\x01"
PLACES = [
    (wire(scope="tile"), (None, None)),
    (wire(scope="layer", layer=0), ("roads", None)),
    (wire(scope="value", layer=0, value=3), ("roads", None)),
    (wire(scope="feature", layer=0, feature=0), ("roads", 5)),
    # (its geometry is cut, after the id)
    (wire(scope="feature", layer=0, feature=1), ("roads", 2**64 - 1)),
    (wire(scope="feature", layer=0, feature=2), ("roads", None)),
    (wire(scope="feature", layer=1, feature=0), (None, None)),
    # (a layer that is cut, and one that isn't there)
    (wire(scope="layer", layer=2), (None, None)),
    (wire(scope="layer", layer=3), (None, None)),
    # (of two layers with one name the second one is looked at)
    (Fault.from_text('{"code":202,"first":1,"second":0}'), ("roads", None)),
    (Fault.from_text('{"code":201,"layer":0}'), ("roads", None)),
]


@pytest.mark.parametrize("fault, names", PLACES, ids=str)
def test_bytes_that_are_no_tile(fault: Fault, names: Tuple[Optional[str], Optional[int]]) -> None:
    assert names_of(TILE, fault) == names


def test_tiles_that_are_cut() -> None:
    """At each byte, and of any bytes: it is a name or none, and no error."""
    fault = wire(scope="feature", layer=0, feature=1)
    for end in range(len(TILE)):
        name, feature = names_of(TILE[:end], fault)
        assert name in ("roads", None) and feature in (2**64 - 1, None)
    for _ in range(2000):
        names_of(os.urandom(40), fault)
        names_of(message(3, os.urandom(40)), fault)


@pytest.mark.parametrize("value", [b"\xff" * 10 + b"\x01", b"\xff" * 9 + b"\x02"])
def test_ids_of_more_than_64_bits(value: bytes) -> None:
    """They are none."""
    tile = message(3, message(1, b"a") + message(2, b"\x08" + value))
    assert names_of(tile, wire(scope="feature", layer=0, feature=0)) == ("a", None)


@pytest.mark.parametrize(
    "raw, name",
    [
        (b"", ""),
        ("ä\n\u2028".encode(), "ä\n\u2028"),
        (b"a\xff", "a\ufffd"),
        (b"n" * 200, "n" * 200),
        (b"n" * 201, "n" * 200 + "…"),
        # (what is cut off isn't shown as if it were broken)
        (b"n" * 199 + "ä".encode() * 9, "n" * 199 + "…"),
        (b"n" * (1 << 20), "n" * 200 + "…"),
    ],
    ids=lambda it: str(len(it)),
)
def test_forms_of_names(raw: bytes, name: str) -> None:
    assert names_of(message(3, message(1, raw)), wire(scope="layer", layer=0)) == (name, None)


def test_time_of_a_name_of_60_mib() -> None:
    tile = message(3, message(1, b"n" * (60 << 20)))
    began = time.process_time()
    assert names_of(tile, wire(scope="layer", layer=0)) == ("n" * 200 + "…", None)
    assert time.process_time() - began < 0.1


def test_unpacked() -> None:
    """By each level of compression, and as it is."""
    for tile in (b"", TILE, bytes(100_000), bytes([0x1A, 0x78, 0x9C])):
        for level in range(10):
            assert unpacked(gzip.compress(tile, level)) == unpacked(zlib.compress(tile, level)) == tile
        assert unpacked(tile) == tile
    for stored in (b"\x1f", b"\x78", b"\x78\x02", b"\x78\x9d", b"\x78\xbb"):
        assert unpacked(stored) == stored


def test_each_cut_is_told() -> None:
    for packed in (gzip.compress(TILE), zlib.compress(TILE)):
        for end in range(2, len(packed)):
            with pytest.raises(NotUnpacked, match="cut"):
                unpacked(packed[:end])
        for at in range(len(packed)):
            changed = packed[:at] + bytes([packed[at] ^ 255]) + packed[at + 1 :]
            try:
                assert unpacked(changed) in (TILE, changed)
            except NotUnpacked:
                pass


def test_greatest_tile() -> None:
    """To the byte; one that is larger isn't unpacked to its end."""
    whole = bytes(LIMIT)
    for pack in (gzip.compress, zlib.compress):
        assert len(unpacked(pack(whole, 1))) == LIMIT
        with pytest.raises(NotUnpacked, match=f"larger than {LIMIT} bytes"):
            unpacked(pack(whole + b"\0", 1))
    assert unpacked(whole) is whole
    with pytest.raises(NotUnpacked):
        unpacked(whole + b"\0")
