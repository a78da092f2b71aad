"""Directories of a PMTiles archive: which bytes are those of which tiles (PMTiles specification, version 3, section 4)."""
from __future__ import annotations

import zlib
from typing import Iterable, List, NamedTuple, Tuple

from ...window import LAST_ZOOM
from ..source import NotASource
from .header import GZIP
from .ids import first_id

# of what is unpacked of one directory; writers keep to some hundred thousand bytes
LIMIT = 1 << 21
_AFTER_LAST = first_id(LAST_ZOOM + 1)
_GZIP_BITS = 31


class Entry(NamedTuple):
    """The bytes of `run` tiles with ids one after another, which are all the same; or of a leaf directory, where it is 0.

    The offset is from the beginning of the section for tiles, or for leaf directories.
    """

    tile_id: int
    run: int
    offset: int
    length: int

    @property
    def after(self) -> int:
        """The id after the last of its tiles."""
        return self.tile_id + self.run


def _unpacked(packed: bytes, packing: int) -> bytes:
    if packing != GZIP:
        return packed
    stream = zlib.decompressobj(_GZIP_BITS)
    try:
        found = stream.decompress(packed, LIMIT + 1)
    except zlib.error as error:
        raise NotASource(f"a directory is broken: {error}") from None
    if len(found) <= LIMIT and not stream.eof:
        raise NotASource("a directory is cut")
    return found


def _varints(data: bytes, at: int, count: int) -> Tuple[List[int], int]:
    """So many numbers from a place on, and the place after them."""
    found = []
    try:
        for _ in range(count):
            number = data[at]
            at += 1
            if number > 127:
                number, shift = number & 127, 7
                while data[at] > 127:
                    number |= (data[at] & 127) << shift
                    shift += 7
                    at += 1
                    if shift > 63:
                        raise NotASource("a number of a directory is too long")
                number |= data[at] << shift
                at += 1
            found.append(number)
    except IndexError:
        raise NotASource("a directory is cut") from None
    return found, at


def _offsets(written: Iterable[int], lengths: Iterable[int]) -> List[int]:
    """Where each entry's bytes are: 0 stands for where those of the entry before end, any other number for one more than the offset."""
    found = []
    end = -1
    for number, length in zip(written, lengths):
        at = number - 1 if number else end
        if at < 0:
            raise NotASource("the first offset of a directory is missing")
        found.append(at)
        end = at + length
    return found


def _check_order(entries: List[Entry], first: int, after: int) -> None:
    """NotASource where ids don't rise, tiles overlap, or an entry is empty or out of the ids that this directory is for."""
    at = first
    for it in entries:
        if it.tile_id < at:
            raise NotASource("the tiles of a directory overlap, or are out of order")
        if it.length == 0:
            raise NotASource("an entry of a directory has no bytes")
        at = it.tile_id + max(1, it.run)
    if at > after:
        raise NotASource("a directory has tiles that it isn't for, or of a zoom above 30")


def entries_of(packed: bytes, packing: int, first: int = 0, after: int = _AFTER_LAST) -> List[Entry]:
    """The entries of a directory that is for the tiles from one id up to another. NotASource where it is broken."""
    data = _unpacked(packed, packing)
    if len(data) > LIMIT:
        raise NotASource(f"a directory is larger than {LIMIT} bytes")
    (count,), at = _varints(data, 0, 1)
    # (each entry takes four bytes at least, so nothing is reserved for a number that isn't there)
    if count > (len(data) - at) // 4:
        raise NotASource("a directory is cut")
    steps, at = _varints(data, at, count)
    runs, at = _varints(data, at, count)
    lengths, at = _varints(data, at, count)
    written, at = _varints(data, at, count)
    if at != len(data):
        raise NotASource("there are bytes after the end of a directory")
    ids = []
    tile_id = 0
    for step in steps:
        tile_id += step
        ids.append(tile_id)
    entries = [Entry(*it) for it in zip(ids, runs, _offsets(written, lengths), lengths)]
    _check_order(entries, first, after)
    return entries
