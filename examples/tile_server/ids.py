"""The ids of features, read from the bytes of a tile that is whole. `mvtgate.dump` has them too, with all else that the tile holds,
and takes many times as long."""
from __future__ import annotations

from typing import Iterator, List, Optional, Sequence, Tuple

# fields of the messages (Mapbox Vector Tile Specification 2.1, section 4.1): of a tile, of a layer and of a feature
_LAYER, _FEATURE, _ID = 3, 2, 1
# wire types of Protocol Buffers, and the bytes of those that have always as many
_VARINT, _LENGTH_DELIMITED = 0, 2
_FIXED = {1: 8, 5: 4}


def _varint(tile: bytes, at: int) -> Tuple[int, int]:
    """A number, and where it ends."""
    number = shift = 0
    while tile[at] >= 128:
        number |= (tile[at] & 127) << shift
        at, shift = at + 1, shift + 7
    return number | tile[at] << shift, at + 1


def _fields(tile: bytes, at: int, end: int) -> Iterator[Tuple[int, int, int]]:
    """The number of each field of a message, and where its content begins and ends."""
    while at < end:
        key, begin = _varint(tile, at)
        if key & 7 == _LENGTH_DELIMITED:
            length, begin = _varint(tile, begin)
            at = begin + length
        else:
            at = _varint(tile, begin)[1] if key & 7 == _VARINT else begin + _FIXED[key & 7]
        yield key >> 3, begin, at


def _places(tile: bytes, field: int, begin: int, end: int) -> List[Tuple[int, int]]:
    return [(first, last) for number, first, last in _fields(tile, begin, end) if number == field]


def _id(tile: bytes, begin: int, end: int) -> Optional[int]:
    return next((_varint(tile, first)[0] for number, first, _ in _fields(tile, begin, end) if number == _ID), None)


def ids_of(tile: bytes, places: Sequence[Tuple[int, int]]) -> List[Optional[int]]:
    """The ids of features by the ordinals of layer and feature; None where a feature has none."""
    layers = _places(tile, _LAYER, 0, len(tile))
    features = {layer: _places(tile, _FEATURE, *layers[layer]) for layer in {layer for layer, _ in places}}
    return [_id(tile, *features[layer][feature]) for layer, feature in places]
