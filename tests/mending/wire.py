"""Tiles as bytes, and how the fields of one became those of another (Protocol Buffers encoding; vector_tile.proto)."""
from __future__ import annotations

from typing import Any, Dict, Iterator, List, Optional, Tuple

from shapes import Ring, Rings

Field = Tuple[int, bytes, Optional[bytes]]
LAYERS, FEATURES, GEOMETRY = 3, 2, 4


def varint(number: int) -> bytes:
    groups = bytearray()
    while number > 127:
        groups.append(number % 128 + 128)
        number //= 128
    return bytes([*groups, number])


def field(number: int, payload: bytes) -> bytes:
    return varint(number * 8 + 2) + varint(len(payload)) + payload


def zigzag(step: int) -> int:
    return 2 * step if step >= 0 else -2 * step - 1


def numbers_of(rings: Rings) -> List[int]:
    numbers, cursor = [], (0, 0)
    for ring in rings:
        for place, position in enumerate(ring):
            if place < 2:
                numbers.append(9 if place == 0 else 8 * (len(ring) - 1) + 2)
            numbers += [zigzag(position[0] - cursor[0]), zigzag(position[1] - cursor[1])]
            cursor = position
        numbers.append(15)
    return numbers


def feature_of(number: int, rings: Rings) -> bytes:
    """A feature with an id, tags, a field that no tile knows, and its geometry before its type."""
    packed = b"".join(map(varint, numbers_of(rings)))
    return b"\x08" + varint(number) + b"\x12\x02\x00\x00" + b"\x4d\x01\x02\x03\x04" + field(GEOMETRY, packed) + b"\x18\x03"


def tile_of(features: List[Rings]) -> bytes:
    """A tile with a layer of points before, and one with unknown fields before and after the features."""
    points = field(1, b"points") + field(FEATURES, b"\x18\x01\x22\x03\x09\x32\x22") + b"\x78\x02"
    polygons = field(1, b"polygons") + field(100, b"unknown")
    polygons += b"".join(field(FEATURES, feature_of(at, rings)) for at, rings in enumerate(features))
    polygons += field(3, b"key") + field(4, b"\x38\x01") + b"\x78\x02" + b"\x28\x80\x20"
    return field(LAYERS, points) + field(9, b"of the tile") + field(LAYERS, polygons)


def read_varint(message: bytes, at: int) -> Tuple[int, int]:
    number = shift = 0
    while True:
        byte = message[at]
        number |= (byte & 127) << shift
        at, shift = at + 1, shift + 7
        if byte < 128:
            return number, at


def fields_of(message: bytes) -> Iterator[Field]:
    """Of each field its number, its bytes, and its payload where that has a length before it."""
    at = 0
    while at < len(message):
        start, payload = at, None
        key, at = read_varint(message, at)
        if key % 8 == 0:
            _, at = read_varint(message, at)
        elif key % 8 == 2:
            length, at = read_varint(message, at)
            payload, at = message[at : at + length], at + length
        else:
            at += {1: 8, 5: 4}[key % 8]
        yield key // 8, message[start:at], payload


def rings_of(feature: bytes) -> Rings:
    """The rings of a feature, of which a ring may have few positions."""
    numbers: List[int] = []
    for number, whole, payload in fields_of(feature):
        if number != GEOMETRY:
            continue
        at, part = 0, payload if payload is not None else whole[1:]
        while at < len(part):
            value, at = read_varint(part, at)
            numbers.append(value)
    rings, at, x, y = [], 0, 0, 0
    while at < len(numbers):
        ring: Ring = []
        steps = numbers[at + 1 : at + 3] + numbers[at + 4 : at + 4 + 2 * (numbers[at + 3] // 8)]
        for dx, dy in zip(steps[::2], steps[1::2]):
            x, y = (it + (step // 2 if step % 2 == 0 else -(step + 1) // 2) for it, step in ((x, dx), (y, dy)))
            ring.append((x, y))
        rings.append(ring)
        at += 3 + 1 + 2 * (len(ring) - 1) + 1
    return rings


def differences(before: bytes, after: bytes, changes: Dict[Tuple[int, int], Any]) -> Iterator[str]:
    """What differs between two tiles beside the changes, which are by layer and feature."""
    layers, others = list(fields_of(before)), list(fields_of(after))
    if len(layers) != len(others):
        yield "other fields in the tile"
        return
    layer = 0
    for (number, whole, payload), (_, whole_after, payload_after) in zip(layers, others):
        if number != LAYERS or payload is None or payload_after is None:
            if whole != whole_after:
                yield f"field {number} of the tile"
            continue
        own = {feature: it for (in_layer, feature), it in changes.items() if in_layer == layer}
        yield from (f"{it} in layer {layer}" for it in differences_in_layer(payload, payload_after, own))
        layer += 1


def differences_in_layer(before: bytes, after: bytes, changes: Dict[int, Any]) -> Iterator[str]:
    left, feature = list(fields_of(after)), 0
    for number, whole, payload in fields_of(before):
        change = None
        if number == FEATURES:
            change = changes.get(feature)
            feature += 1
        if change is not None and change["what"] == "dropped":
            continue
        if not left:
            yield f"field {number} is missing"
            return
        _, whole_after, payload_after = left.pop(0)
        if change is None:
            if whole != whole_after:
                yield f"field {number}"
        elif payload is None or payload_after is None or others_of(payload) != others_of(payload_after):
            yield f"another field than the geometry of feature {feature - 1}"
    if left:
        yield "more fields"


def others_of(feature: bytes) -> List[bytes]:
    return [whole for number, whole, _ in fields_of(feature) if number != GEOMETRY]


def features_of(tile: bytes) -> Dict[Tuple[int, int], bytes]:
    """The features of a tile, by layer and ordinal."""
    layers = [payload for number, _, payload in fields_of(tile) if number == LAYERS]
    return {
        (layer, at): part
        for layer, payload in enumerate(layers)
        for at, part in enumerate(it for number, _, it in fields_of(payload or b"") if number == FEATURES and it is not None)
    }
