"""Writes small tiles (Mapbox Vector Tile Specification 2.1, section 4; Protocol Buffers encoding)."""
from __future__ import annotations

from typing import Iterable, Optional, Sequence, Union

TILE_LIMIT = 67_108_864  # bytes that the page takes
POINT, LINESTRING, POLYGON = 1, 2, 3


def varint(number: int) -> bytes:
    spelled = bytearray()
    while number > 127:
        spelled.append(number & 127 | 128)
        number >>= 7
    spelled.append(number)
    return bytes(spelled)


def zigzag(step: int) -> int:
    return 2 * step if step >= 0 else -2 * step - 1


def field(number: int, payload: Union[int, bytes]) -> bytes:
    if isinstance(payload, int):
        return varint(number << 3) + varint(payload)
    return varint(number << 3 | 2) + varint(len(payload)) + payload


def packed(numbers: Iterable[int]) -> bytes:
    return b"".join(map(varint, numbers))


def feature(kind: int, geometry: Sequence[int], identifier: Optional[int] = None, tags: Sequence[int] = ()) -> bytes:
    parts = [field(1, identifier)] if identifier is not None else []
    parts += [field(2, packed(tags))] if tags else []
    return b"".join([*parts, field(3, kind), field(4, packed(geometry))])


def point(x: int, y: int, identifier: Optional[int] = None, tags: Sequence[int] = ()) -> bytes:
    """A feature of one point, whose coordinates aren't negative."""
    return feature(POINT, [9, 2 * x, 2 * y], identifier, tags)


def layer(name: str, features: Sequence[bytes], keys: Sequence[str] = (), values: Sequence[str] = ()) -> bytes:
    parts = [field(15, 2), field(1, name.encode())]
    parts += [field(2, it) for it in features]
    parts += [field(3, it.encode()) for it in keys]
    parts += [field(4, field(1, it.encode())) for it in values]
    return field(3, b"".join(parts))


def tile_of_size(size: int) -> bytes:
    """A valid tile of so many bytes: a layer of points, and a field that no tile has, for the rest."""
    one = field(2, point(25, 17))
    head = field(15, 2) + field(1, b"a")
    points = field(3, head + one * ((size - 64) // len(one)))
    rest = size - len(points)
    lengths = (rest - 1 - len(varint(rest - it)) for it in range(1, 12))
    return points + next(it for it in (field(1, bytes(length)) for length in lengths if length >= 0) if len(it) == rest)
