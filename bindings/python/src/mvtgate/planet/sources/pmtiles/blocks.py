"""Tiles of an archive read together: one range for many that lie close to each other."""
from __future__ import annotations

import bisect
import collections
from typing import List, NamedTuple, Optional, Sequence, Tuple

from ...._files import LIMIT
from .directory import Entry
from .header import Section
from .ranges import Ranges

# a range has at most so many bytes, unless one tile has more; bytes that nobody asked for are read too where they are few
_MOST = 1 << 22
_GAP = 1 << 14
_KEPT = 4


class _Block(NamedTuple):
    """Bytes from one offset up to another."""

    first: int
    after: int


def _blocks(entries: Sequence[Entry], length: int) -> List[_Block]:
    """Ranges that have the bytes of all entries whose bytes can be read."""
    found: List[_Block] = []
    for it in sorted({(it.offset, it.length) for it in entries if it.length <= LIMIT and it.offset + it.length <= length}):
        first, after = it[0], sum(it)
        if found and first <= found[-1].after + _GAP and max(after, found[-1].after) - found[-1].first <= _MOST:
            found[-1] = _Block(found[-1].first, max(after, found[-1].after))
        else:
            found.append(_Block(first, after))
    return found


class Blocks:
    """The bytes of some entries. A few ranges are kept, those that were asked for last."""

    def __init__(self, ranges: Ranges, data: Section, entries: Sequence[Entry]) -> None:
        self._ranges = ranges
        self._data = data
        self._blocks = _blocks(entries, data.length)
        self._kept: "collections.OrderedDict[_Block, bytes]" = collections.OrderedDict()

    def of(self, entry: Entry) -> Tuple[bytes, Optional[str]]:
        """The bytes of an entry, or why they can't be read."""
        if entry.offset + entry.length > self._data.length:
            return b"", "its bytes are beyond the end of the archive's tiles"
        if entry.length > LIMIT:
            return b"", f"{entry.length} bytes are stored, more than {LIMIT}"
        block = self._blocks[bisect.bisect_right(self._blocks, entry.offset, key=lambda it: it.first) - 1]
        at = entry.offset - block.first
        return self._read(block)[at : at + entry.length], None

    def _read(self, block: _Block) -> bytes:
        if block in self._kept:
            self._kept.move_to_end(block)
            return self._kept[block]
        data = self._ranges.read(self._data.offset + block.first, block.after - block.first)
        self._kept[block] = data
        if len(self._kept) > _KEPT:
            self._kept.popitem(last=False)
        return data
