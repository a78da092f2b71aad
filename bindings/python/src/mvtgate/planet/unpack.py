"""The bytes of a tile out of those that are stored: by gzip, by zlib, by Zstandard, or as they are."""
from __future__ import annotations

import enum
import importlib
import zlib
from typing import Any, List

from .._files import LIMIT

_GZIP = b"\x1f\x8b"
_ZSTD = b"\x28\xb5\x2f\xfd"
# (zlib's numbers for a stream with gzip's or with zlib's own head)
_GZIP_BITS, _ZLIB_BITS = 31, 15
# (a block of Zstandard has 128 KiB at most and may take 4 bytes, so that so many bytes give 32 MiB)
_ZSTD_STEP = 1024


class NotUnpacked(ValueError):
    """Stored bytes that can't be unpacked, with the reason."""


class Packing(enum.Enum):
    """By what a tile is packed."""

    NONE = enum.auto()
    GZIP = enum.auto()
    ZLIB = enum.auto()
    ZSTD = enum.auto()


def packing_of(stored: bytes) -> Packing:
    """By what stored bytes are packed, by how they begin."""
    if stored[:2] == _GZIP:
        return Packing.GZIP
    if _has_zlib_head(stored):
        return Packing.ZLIB
    return Packing.ZSTD if stored[:4] == _ZSTD else Packing.NONE


def _has_zlib_head(stored: bytes) -> bool:
    """Whether they begin as zlib's streams do: a window of 32 KiB, no dictionary, and a sum that is right.

    A tile could begin so too, with a field 15 of its own. No writer of such tiles is known.
    """
    return stored[:1] == b"\x78" and len(stored) > 1 and not stored[1] & 32 and int.from_bytes(stored[:2], "big") % 31 == 0


def _check_end(name: str, is_ended: bool, left: int) -> None:
    """NotUnpacked where a stream is cut, or isn't the last of the bytes."""
    if not is_ended:
        raise NotUnpacked(f"the {name} stream is cut")
    if left:
        raise NotUnpacked(f"there are {left} bytes after the end of the {name} stream")


def _check_size(size: int) -> None:
    if size > LIMIT:
        raise NotUnpacked(f"it is larger than {LIMIT} bytes")


def _inflated(stored: bytes, bits: int, name: str) -> bytes:
    stream = zlib.decompressobj(bits)
    try:
        tile = stream.decompress(stored, LIMIT + 1)
    except zlib.error as error:
        raise NotUnpacked(f"the {name} stream is broken: {error}") from None
    _check_size(len(tile))
    _check_end(name, stream.eof, len(stream.unused_data))
    return tile


def _of_zstd(stored: bytes) -> bytes:
    try:
        zstandard: Any = importlib.import_module("zstandard")
    except ImportError:
        raise NotUnpacked("it is packed by Zstandard, and zstandard isn't installed (Debian's package python3-zstandard)") from None
    stream: Any = zstandard.ZstdDecompressor().decompressobj()
    parts: List[bytes] = []
    size = at = 0
    try:
        while at < len(stored) and not stream.eof:
            parts.append(stream.decompress(stored[at : at + _ZSTD_STEP]))
            at += _ZSTD_STEP
            size += len(parts[-1])
            _check_size(size)
    except zstandard.ZstdError as error:
        raise NotUnpacked(f"the Zstandard stream is broken: {error}") from None
    _check_end("Zstandard", stream.eof, len(stream.unused_data) + max(0, len(stored) - at))
    return b"".join(parts)


def unpacked(stored: bytes) -> bytes:
    """The tile's bytes. NotUnpacked where there are more than 64 MiB of them, or where a packed stream is cut or broken."""
    packing = packing_of(stored)
    if packing is Packing.GZIP:
        return _inflated(stored, _GZIP_BITS, "gzip")
    if packing is Packing.ZLIB:
        return _inflated(stored, _ZLIB_BITS, "zlib")
    if packing is Packing.ZSTD:
        return _of_zstd(stored)
    _check_size(len(stored))
    return stored
