"""Sums of the tiles of a partition, by which a later run finds which of them have other bytes.

They are kept in the store of a run: for each tile its column and row, with rows from the north, and eight bytes of a sum.
"""
from __future__ import annotations

import array
import hashlib
import zlib
from typing import Dict, Iterable, List, Tuple

_SIZE = 8
_HEAD = 4

Tile = Tuple[int, int]


def sum_of(stored: bytes) -> bytes:
    """The sum of what is stored of a tile."""
    return hashlib.blake2b(stored, digest_size=_SIZE).digest()


class Sums:
    """Those of a partition, in the order of its tiles."""

    def __init__(self) -> None:
        self._places = array.array("q")
        self._sums: List[bytes] = []
        self._last: Tile = (0, 0)

    def add(self, column: int, row: int, stored: bytes) -> bytes:
        """That of one more tile."""
        # (steps, most of which are alike, so that they are packed to little)
        self._places.extend((column - self._last[0], row - self._last[1]))
        self._last = (column, row)
        self._sums.append(sum_of(stored))
        return self._sums[-1]

    def packed(self) -> bytes:
        places = zlib.compress(self._places.tobytes())
        return b"".join([len(places).to_bytes(_HEAD, "big"), places, *self._sums])


def sums_in(blocks: Iterable[bytes]) -> Dict[Tile, bytes]:
    """The sums of several partitions, but for places at which there are several tiles."""
    found: Dict[Tile, bytes] = {}
    several = set()
    for block in blocks:
        for tile, it in _each(block):
            if found.setdefault(tile, it) is not it:
                several.add(tile)
    return {tile: it for tile, it in found.items() if tile not in several}


def _each(block: bytes) -> Iterable[Tuple[Tile, bytes]]:
    end = _HEAD + int.from_bytes(block[:_HEAD], "big")
    steps = array.array("q")
    steps.frombytes(zlib.decompress(block[_HEAD:end]))
    column = row = 0
    for at in range(0, len(steps), 2):
        column, row = column + steps[at], row + steps[at + 1]
        yield (column, row), block[end : end + _SIZE]
        end += _SIZE
