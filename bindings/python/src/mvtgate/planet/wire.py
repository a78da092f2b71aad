"""The fields of a tile's messages, read one after another, for names and places that are told of a tile.

This decides nothing, so it takes of bytes that are no tile what can be read.
"""
from __future__ import annotations

from typing import Iterator, Optional, Tuple, Union

# fields of the messages of a tile (MVT 2.1 section 4)
LAYER, NAME, FEATURE, EXTENT, ID, GEOMETRY = 3, 1, 2, 5, 1, 4
# wire types (Protocol Buffers encoding), and the sizes of those that aren't named
_VARINT, _BYTES = 0, 2
_FIXED = {1: 8, 5: 4}


def varint(message: memoryview, at: int) -> Tuple[int, int]:
    """A varint, and where it ends. IndexError where it is cut."""
    if message[at] < 128:
        return message[at], at + 1
    value = shift = 0
    while True:
        byte = message[at]
        at += 1
        value |= (byte & 127) << shift
        if byte < 128:
            return value, at
        shift += 7
        if shift > 63:
            raise IndexError(at)


def payloads(message: memoryview, number: int) -> Iterator[Union[int, memoryview]]:
    """Those of the fields of a number, up to the first field that can't be read."""
    at = 0
    try:
        while at < len(message):
            key, at = varint(message, at)
            kind = key & 7
            if kind == _VARINT:
                value, at = varint(message, at)
                if key >> 3 == number:
                    yield value
                continue
            size, at = varint(message, at) if kind == _BYTES else (_FIXED[kind], at)
            if at + size > len(message):
                return
            if key >> 3 == number:
                yield message[at : at + size]
            at += size
    except LookupError:
        return


def number_of(message: memoryview, number: int) -> Optional[int]:
    """The first number of a field."""
    return next((it for it in payloads(message, number) if isinstance(it, int)), None)


def repeated(message: memoryview, number: int) -> Iterator[int]:
    """The numbers of a repeated field, up to the first one that can't be read.

    Each occurrence may be packed or a single number, and they are joined in their order (Protocol Buffers encoding).
    """
    for it in payloads(message, number):
        if isinstance(it, int):
            yield it
            continue
        at = 0
        try:
            while at < len(it):
                value, at = varint(it, at)
                yield value
        except IndexError:
            return
