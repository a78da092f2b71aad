"""Directories of a PMTiles archive that is written (PMTiles specification, version 3, section 4)."""
from __future__ import annotations

import gzip
from typing import Iterable, Iterator, List

from .directory import Entry
from .header import GZIP, SIZE

# the header and the root directory are within so many bytes
HEAD = 16_384
_MOST_IN_ROOT = HEAD - SIZE
# how many entries a leaf directory has, and how many leaf directories the root leads to at most
_LEAF = 4096
_MOST_LEAVES = 1024


def _varint(number: int) -> bytes:
    found = bytearray()
    while number > 127:
        found.append(number & 127 | 128)
        number >>= 7
    found.append(number)
    return bytes(found)


def _written_offsets(entries: List[Entry]) -> Iterator[int]:
    """An offset more one, or 0 where the bytes follow those of the entry before."""
    end = -1
    for it in entries:
        yield 0 if it.offset == end else it.offset + 1
        end = it.offset + it.length


def packed(entries: List[Entry], packing: int) -> bytes:
    """A directory."""
    parts = [_varint(len(entries))]
    before = 0
    for it in entries:
        parts.append(_varint(it.tile_id - before))
        before = it.tile_id
    parts += [_varint(it.run) for it in entries]
    parts += [_varint(it.length) for it in entries]
    parts += map(_varint, _written_offsets(entries))
    data = b"".join(parts)
    return gzip.compress(data, mtime=0) if packing == GZIP else data


class Directories:
    """The leaf directories of so many entries, one after another, and then the root. Entries are kept for one leaf alone."""

    def __init__(self, packing: int, count: int) -> None:
        self._packing = packing
        self._size = max(_LEAF, -(-count // _MOST_LEAVES))
        self._root: List[Entry] = []
        self._end = 0

    def leaves(self, entries: Iterable[Entry]) -> Iterator[bytes]:
        """The bytes of each leaf directory, in order."""
        leaf: List[Entry] = []
        for it in entries:
            leaf.append(it)
            if len(leaf) == self._size:
                yield self._leaf(leaf)
                leaf = []
        if leaf:
            yield self._leaf(leaf)

    def _leaf(self, entries: List[Entry]) -> bytes:
        data = packed(entries, self._packing)
        self._root.append(Entry(entries[0].tile_id, 0, self._end, len(data)))
        self._end += len(data)
        return data

    def root(self) -> bytes:
        """The root directory, after all leaves."""
        data = packed(self._root, self._packing)
        if len(data) > _MOST_IN_ROOT:
            raise OverflowError(f"the root directory has {len(data)} bytes, more than {_MOST_IN_ROOT}")
        return data
