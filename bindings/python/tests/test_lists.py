"""All faults of a tile: on sample tiles, on tiles that are put together of them, and on one that is made by hand."""
from __future__ import annotations

import json
import threading
from typing import Any, Dict, Iterable, Iterator, List, Set, Tuple, Union

import pytest

import mvtgate
from conftest import SAMPLES, YES, Sample, varint
from mvtgate import Fault, Profile, RingEdge

EACH_PROFILE = [(it, profile) for it in SAMPLES for profile in it.lines]
LAYER, NAME, FEATURE = 3, 1, 2


def subject(fault: Fault) -> Tuple[Any, ...]:
    """What a fault is about, of which each has one fault: all of the bytes, a layer, or a feature. In the order of faults."""
    if fault.code < 200:
        return (0,)
    if fault.code < 300:
        return (1, fault.second if fault.code == 202 else fault.layer)
    return (2, fault.layer, fault.feature)


@pytest.mark.parametrize("quick", [False, True])
@pytest.mark.parametrize("sample, profile", EACH_PROFILE, ids=lambda it: it.name.lower() if isinstance(it, Profile) else str(it.path.stem))
def test_samples(sample: Sample, profile: Profile, quick: bool) -> None:
    """A list is empty for a valid tile, begins with the fault of check, and has one true fault of each layer and feature."""
    fault = mvtgate.check(sample.tile, profile, quick=quick)
    listed = mvtgate.faults(sample.tile, profile, quick=quick)
    assert (listed == []) is (fault is None) is (sample.lines[profile] == [YES])
    assert listed[:1] == ([] if fault is None else [fault])
    assert all(mvtgate.confirm(sample.tile, it, profile) for it in listed)
    subjects = list(map(subject, listed))
    assert subjects == sorted(set(subjects))


@pytest.mark.parametrize("sample, profile", EACH_PROFILE, ids=lambda it: it.name.lower() if isinstance(it, Profile) else str(it.path.stem))
def test_quick_verdict(sample: Sample, profile: Profile) -> None:
    """It is about the layer or feature that the expected lines are about, and by `polygon` it is one of these lines."""
    fault = mvtgate.check(sample.tile, profile, quick=True)
    expected = sample.lines[profile]
    if fault is None:
        assert expected == [YES]
        return
    assert subject(fault) == subject(Fault.from_text(expected[0]))
    assert profile is Profile.FEATURE or fault.text in expected


Field = Tuple[int, bytes, bytes]


def number_at(message: bytes, at: int) -> Tuple[int, int]:
    """A varint, and where it ends."""
    number = shift = 0
    while True:
        number |= (message[at] & 127) << shift
        at, shift = at + 1, shift + 7
        if message[at - 1] < 128:
            return number, at


def fields(message: bytes) -> Iterator[Field]:
    """The fields of a whole message: number, payload (of a length before it), and all of their bytes."""
    at = 0
    while at < len(message):
        begin = at
        key, at = number_at(message, at)
        if key & 7 == 0:
            payload_end = number_at(message, at)[1]
        elif key & 7 == 2:
            length, at = number_at(message, at)
            payload_end = at + length
        else:
            payload_end = at + (8 if key & 7 == 1 else 4)
        yield key >> 3, message[at:payload_end], message[begin:payload_end]
        at = payload_end


def block(number: int, payload: bytes) -> bytes:
    return varint(number << 3 | 2) + varint(len(payload)) + payload


def renamed(layer: bytes, suffix: bytes) -> bytes:
    return b"".join(block(NAME, payload + suffix) if number == NAME else whole for number, payload, whole in fields(layer))


def layers_of(tile: bytes) -> List[bytes]:
    return [payload for number, payload, _ in fields(tile) if number == LAYER]


def put_together(tiles: Iterable[bytes]) -> bytes:
    """The layers of several tiles, one after another, those of each with a name that no other has."""
    return b"".join(block(LAYER, renamed(layer, b"#%d" % at)) for at, tile in enumerate(tiles) for layer in layers_of(tile))


def moved(text: str, layers: int) -> Fault:
    """The same fault so many layers later."""
    members: Dict[str, Any] = json.loads(text)
    for key in ("first", "second") if members["code"] == 202 else ("layer",):
        members[key] += layers
    return Fault.from_text(json.dumps(members))


def groups_of_samples() -> List[List[Sample]]:
    """Samples that are tiles, in groups of each size, so that each comes after others and before others."""
    tiles = [it for it in SAMPLES if it.is_tile]
    return [tiles[:2], tiles[::-1], tiles[::7], *(tiles[at : at + 5] for at in range(0, len(tiles), 5))]


@pytest.mark.parametrize("profile", Profile)
@pytest.mark.parametrize("group", groups_of_samples(), ids=lambda it: f"{it[0].path.stem}_and_{len(it) - 1}_more")
def test_tiles_put_together(group: List[Sample], profile: Profile) -> None:
    """A tile has the faults of its parts: those of layers first, and then those of features."""
    group = [it for it in group if profile in it.lines]
    tile = put_together(it.tile for it in group)
    listed = mvtgate.faults(tile, profile)
    assert all(mvtgate.confirm(tile, it, profile) for it in listed)
    wanted: List[Fault] = []
    before = 0
    for sample in group:
        # (the first fault of each part is known from outside)
        lines = [] if sample.lines[profile] == [YES] else [moved(it, before) for it in sample.lines[profile]]
        assert not lines or set(lines) & set(listed)
        wanted += (moved(it.text, before) for it in mvtgate.faults(sample.tile, profile))
        before += len(layers_of(sample.tile))
    assert listed == sorted(wanted, key=subject)


def feature(kind: int, *numbers: int, tags: bytes = b"") -> bytes:
    geometry = b"".join(map(varint, numbers))
    return block(FEATURE, (block(2, tags) if tags else b"") + b"\x18" + varint(kind) + block(4, geometry))


def layer(version: int, *features: bytes, name: bytes = b"a") -> bytes:
    return block(LAYER, b"\x78" + varint(version) + block(NAME, name) + b"".join(features))


POINT = feature(1, 9, 50, 34)
# MoveTo with a count of 0
NO_POINT = feature(1, 1, 50, 34)
ODD_TAGS = feature(1, 1, 50, 34, tags=b"\x00")
# two squares with the corners (0, 0) and (10, 10), and (5, 5) and (15, 15)
SQUARES = feature(3, 9, 0, 0, 26, 20, 0, 0, 20, 19, 0, 15, 9, 10, 9, 26, 20, 0, 0, 20, 19, 0, 15)
# MVT's example of a polygon, with its first vertex once more at the end
CLOSED_TWICE = feature(3, 9, 6, 12, 26, 10, 12, 24, 44, 33, 55, 15)
BY_HAND = b"".join([
    layer(2, NO_POINT, POINT, ODD_TAGS, SQUARES),
    layer(1, POINT, CLOSED_TWICE),
    layer(2, POINT),
    layer(3, NO_POINT),
])
BY_POLYGON = [
    '{"code":201,"layer":1}',
    '{"code":202,"first":0,"second":2}',
    '{"code":201,"layer":3}',
    '{"code":402,"feature":0,"index":0,"layer":0}',
    '{"code":301,"feature":2,"index":1,"layer":0}',
    '{"code":501,"feature":1,"layer":1,"ring":0}',
    '{"code":402,"feature":0,"index":0,"layer":3}',
]
SQUARE_IN_SQUARE = '{"code":507,"feature":3,"layer":0,"other":1,"polygon":0,"vertex":2}'


@pytest.mark.parametrize("quick", [False, True])
def test_tile_made_by_hand(quick: bool) -> None:
    """Of a layer with a wrong version and a name twice the version is told, and of a feature what comes first: its tags."""
    assert [it.text for it in mvtgate.faults(BY_HAND, quick=quick)] == BY_POLYGON
    assert mvtgate.faults(b"") == mvtgate.faults(layer(2, POINT)) == []


def test_tile_made_by_hand_by_feature() -> None:
    """Two squares overlap: a vertex in the other one comes first, and where edges meet a quick search names a meeting."""
    listed = [it.text for it in mvtgate.faults(BY_HAND, Profile.FEATURE)]
    assert listed == [*BY_POLYGON[:5], SQUARE_IN_SQUARE, *BY_POLYGON[5:]]
    quick = mvtgate.faults(BY_HAND, Profile.FEATURE, quick=True)
    assert [it.text for it in quick[:5] + quick[6:]] == BY_POLYGON
    # (the edges meet at two points, and either may be named)
    meetings: Set[Tuple[Union[int, RingEdge, None], ...]] = {(RingEdge(0, 1), RingEdge(1, 0), 10, 5), (RingEdge(0, 2), RingEdge(1, 3), 5, 10)}
    it = quick[5]
    assert it.point is not None
    assert (it.code, it.layer, it.feature, it.polygon) == (504, 0, 3, 1) and (it.first, it.second, *map(int, it.point)) in meetings


def test_first_fault_of_two_squares() -> None:
    tile = layer(2, POINT, SQUARES)
    fault, quick = (mvtgate.check(tile, Profile.FEATURE, quick=it) for it in (False, True))
    assert fault is not None and quick is not None
    assert (fault.code, quick.code, quick.feature) == (507, 504, 1)
    assert mvtgate.check(tile, quick=True) is None


@pytest.mark.parametrize("quick", [False, True])
def test_long_list(quick: bool) -> None:
    """A list that has no room in the first call's."""
    tile = layer(2, *(3000 * [NO_POINT]))
    wanted = [f'{{"code":402,"feature":{at},"index":0,"layer":0}}' for at in range(3000)]
    assert [it.text for it in mvtgate.faults(tile, quick=quick)] == wanted
    assert len(mvtgate.faults(layer(2, NO_POINT), quick=quick)) == 1


def test_threads() -> None:
    tiles = [layer(2, *(count * [NO_POINT])) for count in range(40)]
    wrong: List[int] = []

    def work(number: int) -> None:
        for at in range(200):
            count = (at * 7 + number) % len(tiles)
            listed = mvtgate.faults(tiles[count])
            if [it.feature for it in listed] != list(range(count)):
                wrong.append(count)

    threads = [threading.Thread(target=work, args=(it,)) for it in range(8)]
    for it in threads:
        it.start()
    for it in threads:
        it.join()
    assert wrong == []
