"""Tiles that are mended: some that are made by hand, and the sample tiles."""
from __future__ import annotations

import array
from fractions import Fraction
from typing import Any, List

import pytest

import mvtgate
from conftest import SAMPLES, YES, Sample, varint
from mvtgate import Change, Mended, Profile, Refused, _by_ctypes, _library


def layer(numbers: bytes) -> bytes:
    """A layer with one feature of type polygon, whose geometry has these numbers."""
    feature = bytes([0x18, 3, 0x22, len(numbers)]) + numbers
    payload = b"\x78\x02\x0a\x01a\x12" + bytes([len(feature)]) + feature
    return bytes([0x1A, len(payload)]) + payload


# a square of 10 by 10 units that is wound as a hole is, the same turned from its first position, and MoveTo with a count of 0,
# which draws nothing
BACKWARDS = layer(bytes([9, 0, 0, 26, 0, 20, 20, 0, 0, 19, 15]))
TURNED = layer(bytes([9, 0, 0, 26, 20, 0, 0, 20, 19, 0, 15]))
NO_RING = layer(bytes([1, 50, 34]))
NO_FEATURE = b"\x1a\x05\x78\x02\x0a\x01a"
IS_TURNED = Change(0, 0, "mended", (-200, 200), (0, 1), (4, 4), 0, 0)
IS_DROPPED = Change(0, 0, "dropped")
EACH_PROFILE = [(it, profile) for it in SAMPLES for profile in it.lines]


@pytest.mark.parametrize("profile", Profile)
@pytest.mark.parametrize("drop", [False, True])
def test_square_that_is_wound_backwards(profile: Profile, drop: bool) -> None:
    assert mvtgate.mend(BACKWARDS, profile, drop=drop) == Mended(TURNED, (IS_TURNED,))
    assert IS_TURNED.area == (Fraction(-100), Fraction(100))


@pytest.mark.parametrize("profile", Profile)
@pytest.mark.parametrize("drop", [False, True])
@pytest.mark.parametrize("tile", [b"", TURNED, NO_FEATURE])
def test_valid_tile(tile: bytes, profile: Profile, drop: bool) -> None:
    mended = mvtgate.mend(tile, profile, drop=drop)
    assert mended == Mended(tile, ())
    assert mended.tile is tile


@pytest.mark.parametrize("profile", Profile)
def test_feature_that_cannot_be_mended(profile: Profile) -> None:
    with pytest.raises(Refused, match="not mended: 402") as caught:
        mvtgate.mend(NO_RING, profile)
    assert caught.value.fault.text == '{"code":402,"feature":0,"index":0,"layer":0}'
    assert isinstance(caught.value, ValueError)
    assert mvtgate.mend(NO_RING, profile, drop=True) == Mended(NO_FEATURE, (IS_DROPPED,))
    assert IS_DROPPED.area is None


@pytest.mark.parametrize("drop", [False, True])
def test_no_tile(drop: bool) -> None:
    with pytest.raises(Refused) as caught:
        mvtgate.mend(b"\x1a\x05", drop=drop)
    assert caught.value.fault == mvtgate.check(b"\x1a\x05")


def test_kinds_of_bytes() -> None:
    for tile, mended in ((BACKWARDS, Mended(TURNED, (IS_TURNED,))), (TURNED, Mended(TURNED))):
        kinds: List[Any] = [bytearray(tile), memoryview(tile), memoryview(b"__" + tile)[2:], array.array("B", tile)]
        for it in kinds:
            given = mvtgate.mend(it)
            assert given == mended
            assert type(given.tile) is bytes


def test_other_arguments() -> None:
    wrong: List[Any] = ["text", None, 5]
    for it in wrong:
        with pytest.raises(TypeError, match="a tile is bytes"):
            mvtgate.mend(it)
        with pytest.raises(TypeError, match="profile"):
            mvtgate.mend(b"", it)


@pytest.mark.parametrize("drop", [False, True])
@pytest.mark.parametrize("sample, profile", EACH_PROFILE, ids=lambda it: it.name.lower() if isinstance(it, Profile) else str(it.path.stem))
def test_samples(sample: Sample, profile: Profile, drop: bool) -> None:
    """Each comes out valid, or is refused for a true fault; with leave to drop, for none of rings and polygons."""
    try:
        mended = mvtgate.mend(sample.tile, profile, drop=drop)
    except Refused as refused:
        assert mvtgate.confirm(sample.tile, refused.fault, profile)
        assert not drop or not 501 <= refused.fault.code <= 507
        return
    assert mvtgate.check(mended.tile, profile) is None
    assert (mended.changed == ()) is (sample.lines[profile] == [YES])
    assert drop or all(it.what == "mended" for it in mended.changed)
    assert mvtgate.mend(mended.tile, profile) == Mended(mended.tile)


# a bow tie, from (0, 0) by (30, 30), (30, 10) and (0, 10): two triangles that meet in (10, 10), which was no vertex
CROSSED = bytes([0x18, 3, 0x22, 11, 9, 0, 0, 26, 60, 60, 0, 39, 59, 0, 15])


def test_many_features() -> None:
    """The report is longer than the room of the first call, and the tile grows by more than that has."""
    count = 1_000
    features = b"".join(b"\x12" + bytes([len(CROSSED)]) + CROSSED for _ in range(count))
    payload = b"\x78\x02\x0a\x01a" + features
    tile = b"\x1a" + varint(len(payload)) + payload
    mended = mvtgate.mend(tile)
    assert mvtgate.check(mended.tile) is None and len(mended.tile) > len(tile) + 4_096
    assert [(it.what, it.feature, it.vertices) for it in mended.changed] == [("mended", at, (4, 6)) for at in range(count)]


@pytest.mark.parametrize("tile, mended, changed", [(BACKWARDS, TURNED, IS_TURNED), (NO_RING, NO_FEATURE, IS_DROPPED)])
def test_rooms_that_are_too_small(monkeypatch: pytest.MonkeyPatch, tile: bytes, mended: bytes, changed: Change) -> None:
    """By ctypes the call is made again with the lengths that are wanted, also where it then refuses."""
    monkeypatch.setattr(_by_ctypes, "_MORE_BYTES", -len(tile))
    monkeypatch.setattr(_by_ctypes, "_LIST_ROOM", 1)
    monkeypatch.setattr(_library, "mend", _by_ctypes.Library(_library._candidates()[0]).mend)
    assert mvtgate.mend(tile, drop=True) == Mended(mended, (changed,))
    if changed is IS_DROPPED:
        with pytest.raises(Refused):
            mvtgate.mend(tile)
