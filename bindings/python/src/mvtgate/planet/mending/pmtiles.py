"""The copy of a PMTiles archive: the same tiles in the same order, of which some have other bytes.

The parts stand in another order than in most archives, since all are written once: header and root directory, metadata, tiles, leaf
directories.
"""
from __future__ import annotations

import array
import bisect
import contextlib
import os
from typing import BinaryIO, Dict, Iterator, List, Tuple

from ..sources.pmtiles import Pmtiles
from ..sources.pmtiles.directory import Entry
from ..sources.pmtiles.header import SIZE, Header, Section
from ..sources.pmtiles.writing import HEAD, Directories
from .copy import Copy, NoCopy, Replaced

_STEP = 1 << 22


class _Moves:
    """Where the bytes of each entry are in the copy.

    Bytes that are replaced where they are move all behind them. Those that come out of order are put behind all others. Bytes that
    are in part those of a tile that is replaced can't be told to be moved or not: no writer makes such an archive.
    """

    def __init__(self) -> None:
        self._offsets = array.array("Q")
        self._lengths = array.array("Q")
        self._new_lengths = array.array("Q")
        # how far bytes move that are behind those
        self._shifts = array.array("q")
        self._behind: Dict[Tuple[int, int], Tuple[int, int]] = {}

    def is_replaced(self, entry: Entry) -> bool:
        at = bisect.bisect_left(self._offsets, entry.offset)
        is_known = at < len(self._offsets) and self._offsets[at] == entry.offset and self._lengths[at] == entry.length
        return is_known or (entry.offset, entry.length) in self._behind

    def replace(self, entry: Entry, length: int) -> None:
        before = self._shifts[-1] if self._shifts else 0
        self._offsets.append(entry.offset)
        self._lengths.append(entry.length)
        self._new_lengths.append(length)
        self._shifts.append(before + length - entry.length)

    def put_behind(self, entry: Entry, to: int, length: int) -> None:
        self._behind[entry.offset, entry.length] = to, length

    def of(self, entry: Entry) -> Entry:
        """The entry as it is in the copy."""
        if (entry.offset, entry.length) in self._behind:
            return Entry(entry.tile_id, entry.run, *self._behind[entry.offset, entry.length])
        before = bisect.bisect_left(self._offsets, entry.offset)
        shift = self._shifts[before - 1] if before else 0
        length = self._new_lengths[before] if self.is_replaced(entry) else entry.length
        if length == entry.length:
            self._require_apart(entry, before)
        return Entry(entry.tile_id, entry.run, entry.offset + shift, length)

    def _require_apart(self, entry: Entry, at: int) -> None:
        """NoCopy where its bytes are in part those of a tile that is replaced, at this place in the list or before it."""
        reaches_in = at > 0 and self._offsets[at - 1] + self._lengths[at - 1] > entry.offset
        is_cut_into = at < len(self._offsets) and self._offsets[at] < entry.offset + entry.length and not self.is_replaced(entry)
        if reaches_in or is_cut_into:
            raise NoCopy("tiles of the archive overlap, and one of them was mended")


class CopyOfPmtiles(Copy):
    """Of a file or of a web server's. Bytes that several places share are changed for all of them."""

    def check(self) -> None:
        """All that could be wrong is found when the source is opened."""

    def fill(self, tiles: Iterator[Replaced]) -> None:
        with contextlib.closing(Pmtiles(self.source)) as source, open(self.part, "wb") as file:
            file.write(bytes(HEAD))
            metadata = Section(HEAD, source.header.metadata.length)
            _copy(source, source.header.metadata, file)
            data = HEAD + metadata.length
            is_clustered, moves = self._copy_tiles(source, tiles, file)
            leaves = file.tell()
            directories = Directories(source.header.directories, source.count)
            for packed in directories.leaves(moves.of(it) for it in source.entries()):
                file.write(packed)
            root = directories.root()
            head = _header(source.header, len(root), metadata, Section(data, leaves - data), Section(leaves, file.tell() - leaves), is_clustered)
            file.seek(0)
            file.write(head.packed() + root)
            file.flush()
            os.fsync(file.fileno())

    def _copy_tiles(self, source: Pmtiles, tiles: Iterator[Replaced], file: BinaryIO) -> Tuple[bool, _Moves]:
        """Copies the tiles with those that are mended, and returns whether they are still in the order of their ids."""
        moves, done, size = _Moves(), 0, source.header.data.length
        late: List[Tuple[Entry, bytes]] = []
        for it in tiles:
            entry = source.entry(it.place.zoom, it.place.column, it.place.row)
            if entry is None:
                raise NoCopy(f"{self.source}: there is no tile {it.place.zoom}/{it.place.column}/{it.place.row} any more")
            if moves.is_replaced(entry):
                continue
            if entry.offset < done:
                moves.put_behind(entry, 0, 0)
                late.append((entry, it.after))
                continue
            _copy(source, Section(source.header.data.offset + done, entry.offset - done), file)
            file.write(it.after)
            done = entry.offset + entry.length
            moves.replace(entry, len(it.after))
        _copy(source, Section(source.header.data.offset + done, size - done), file)
        begin = HEAD + source.header.metadata.length
        for entry, after in late:
            moves.put_behind(entry, file.tell() - begin, len(after))
            file.write(after)
        return source.header.is_clustered and not late, moves


def _copy(source: Pmtiles, section: Section, file: BinaryIO) -> None:
    offset, left = section
    while left > 0:
        step = min(left, _STEP)
        file.write(source.ranges.read(offset, step))
        offset, left = offset + step, left - step


def _header(of: Header, root: int, metadata: Section, data: Section, leaves: Section, is_clustered: bool) -> Header:
    return of._replace(root=Section(SIZE, root), metadata=metadata, leaves=leaves, data=data, is_clustered=is_clustered)
