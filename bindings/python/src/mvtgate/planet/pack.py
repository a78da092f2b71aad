"""The bytes of a tile packed as those of another one are."""
from __future__ import annotations

import gzip
import importlib
import zlib
from typing import Any

from .unpack import Packing, packing_of

# (few tiles are packed, and many readers read them)
_LEVEL, _ZSTD_LEVEL = 9, 19


def packed_as(stored: bytes, tile: bytes) -> bytes:
    """The bytes of a tile, packed by what the stored ones are packed by, which have been unpacked before."""
    packing = packing_of(stored)
    if packing is Packing.GZIP:
        return gzip.compress(tile, _LEVEL, mtime=0)
    if packing is Packing.ZLIB:
        return zlib.compress(tile, _LEVEL)
    if packing is Packing.ZSTD:
        zstandard: Any = importlib.import_module("zstandard")
        packed: bytes = zstandard.ZstdCompressor(level=_ZSTD_LEVEL).compress(tile)
        return packed
    return tile
