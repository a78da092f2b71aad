"""A PMTiles archive as a source of tiles (PMTiles specification, version 3), from a file or from a web server."""
from __future__ import annotations

import bisect
import dataclasses
import functools
from typing import Any, Dict, Iterator, List, NamedTuple, Optional, Tuple

from ...._files import LIMIT
from ...records import Extent, Partition
from ...window import LAST_ZOOM, Window
from ..source import NotASource, Source, SourceChanged, Stored
from .blocks import Blocks
from .directory import LIMIT as LIMIT_OF_DIRECTORY, Entry, entries_of
from .header import SIZE, Header, Section
from .ids import Box, box_of, first_id, id_of, ids_within, place_of
from .ranges import Ranges, is_address, ranges_of

# the archive begins with the header and the root directory, which are within so many bytes
_HEAD = 16_384
# how many directories lead to a tile, the root among them
_DEPTH = 4
# more places than all tiles up to zoom 16 have: a run over more would never end
_MOST_PLACES = 1 << 33
_KEPT_DIRECTORIES = 4
# how many tiles are taken together at first
_TILES = 4096


class _Level(NamedTuple):
    """A directory, as the entry that leads to it and the ids that it is for say."""

    offset: int
    length: int
    first: int
    after: int


class Pmtiles(Source):
    """Tiles are in the order of their ids, so a partition's first and last are (0, id). The file may not change meanwhile."""

    kind = "pmtiles"

    def __init__(self, path: str, window: Window = Window()) -> None:
        super().__init__(path, window)
        if is_address(path):
            self.path = path
        self.ranges = ranges_of(self.path)
        try:
            self._head = self.ranges.read(0, min(_HEAD, self.ranges.size))
            self.header = Header.of(self._head)
            for section in (self.header.root, self.header.metadata, self.header.leaves, self.header.data):
                self._require(section)
        except NotASource as error:
            self.close()
            raise NotASource(f"{path}: {error}") from None
        self._modified = self.modified()
        # (not of a method: what is kept would keep the archive, and its file open)
        self._leaf = functools.lru_cache(maxsize=_KEPT_DIRECTORIES)(functools.partial(_leaf_of, self.ranges, self.header))

    def _require(self, section: Section) -> None:
        if section.offset + section.length > self.ranges.size:
            raise NotASource("it is cut: a part of it is beyond its end")

    # What has to stay the same

    def stamp(self) -> Dict[str, Any]:
        return {**self.ranges.stamp(), "head": self._head[:SIZE].hex()}

    def modified(self) -> int:
        return self.ranges.modified()

    def check(self, stamp: Dict[str, Any]) -> None:
        try:
            is_same = self.stamp() == stamp and self.modified() == self._modified
        except OSError as error:
            raise SourceChanged(f"{self.path}: {error.strerror}") from None
        if not is_same:
            raise SourceChanged(f"{self.path} isn't the file that it was when the run began")

    def close(self) -> None:
        self.ranges.close()

    # Directories

    @functools.cached_property
    def _root(self) -> List[Entry]:
        offset, length = self.header.root
        try:
            packed = self._head[offset : offset + length] if offset + length <= len(self._head) else _packed(self.ranges, offset, length)
            return entries_of(packed, self.header.directories)
        except NotASource as error:
            raise NotASource(f"{self.path}: {error}") from None

    def _below(self, entries: List[Entry], at: int, after: int) -> _Level:
        """The leaf directory that an entry leads to."""
        it = entries[at]
        return _Level(it.offset, it.length, it.tile_id, entries[at + 1].tile_id if at + 1 < len(entries) else after)

    def _entries(self, first: int, after: int) -> Iterator[Entry]:
        """The entries with tiles from an id up to another, in order."""
        # (directories that are still to be read on, the last one first)
        waiting: List[Tuple[List[Entry], int, int]] = [(self._root, _from(self._root, first), first_id(LAST_ZOOM + 1))]
        while waiting:
            entries, at, end = waiting.pop()
            if at == len(entries) or entries[at].tile_id >= after:
                continue
            waiting.append((entries, at + 1, end))
            if entries[at].run:
                if entries[at].after > first:
                    yield entries[at]
                continue
            if len(waiting) == _DEPTH:
                raise NotASource(f"{self.path}: a leaf directory is more than {_DEPTH - 1} directories below the root")
            level = self._below(entries, at, end)
            leaf = self._told(level)
            waiting.append((leaf, _from(leaf, first), level.after))

    def _told(self, level: _Level) -> List[Entry]:
        try:
            return self._leaf(level)
        except NotASource as error:
            raise NotASource(f"{self.path}: {error}") from None

    # Partitions

    def survey(self) -> List[Extent]:
        extents: Dict[int, Extent] = {}
        places = 0
        for part in self.columns(0):
            places += part.tiles
            if places > _MOST_PLACES:
                raise NotASource(f"{self.path}: it has more than {_MOST_PLACES} tiles")
            box = box_of(part.first[1], part.last[1])
            known = extents.get(part.zoom)
            if known:
                box = box.around(Box(known.first_column, known.last_column, known.first_row, known.last_row))
            extents[part.zoom] = Extent(part.zoom, part.tiles + (known.tiles if known else 0), *box)
        return [extents[zoom] for zoom in sorted(extents)]

    def _ids(self, first: int, after: int, zoom: int) -> Iterator[Tuple[Entry, range]]:
        """Entries with the ids of their tiles from one up to another that are in the window."""
        ranges = self.window.ranges(zoom)
        box = Box(ranges.first_column, ranges.last_column, ranges.first_row, ranges.last_row)
        for entry in self._entries(first, after):
            start, end = max(first, entry.tile_id), min(after, entry.after)
            if self.window.box is None:
                yield entry, range(start, end)
            else:
                yield from ((entry, ids) for ids in ids_within(start, end, box))

    def columns(self, number: int) -> Iterator[Partition]:
        """The tiles of some entries that follow each other, as a partition."""
        for zoom in filter(self.window.has_zoom, range(LAST_ZOOM + 1)):
            part: Optional[Partition] = None
            for _, ids in self._ids(first_id(zoom), first_id(zoom + 1), zoom):
                if part and part.tiles + len(ids) <= _TILES:
                    part = dataclasses.replace(part, last=(0, ids[-1]), tiles=part.tiles + len(ids))
                    continue
                if part:
                    yield part
                part = Partition(number, zoom, (0, ids[0]), (0, ids[-1]), len(ids))
            if part:
                yield part

    def places(self, partition: Partition) -> Iterator[Tuple[int, int]]:
        for _, ids in self._ids(partition.first[1], partition.last[1] + 1, partition.zoom):
            for tile_id in ids:
                yield 0, tile_id

    def northern(self, partition: Partition) -> Tuple[int, int]:
        _, column, row = place_of(partition.first[1])
        return column, row

    # Tiles

    def tiles(self, partition: Partition) -> Iterator[Stored]:
        wanted = list(self._ids(partition.first[1], partition.last[1] + 1, partition.zoom))
        blocks = Blocks(self.ranges, self.header.data, [entry for entry, _ in wanted])
        for entry, ids in wanted:
            data, why = blocks.of(entry)
            for tile_id in ids:
                _, column, row = place_of(tile_id)
                yield Stored(column, row, data, why, entry.length, (entry.offset, entry.length))

    def entry(self, zoom: int, column: int, row: int) -> Optional[Entry]:
        """The entry with the tile at a place."""
        tile_id = id_of(zoom, column, row)
        return next(self._entries(tile_id, tile_id + 1), None)

    def entries(self) -> Iterator[Entry]:
        """All entries with tiles, in the order of their ids."""
        return self._entries(0, first_id(LAST_ZOOM + 1))

    @property
    def count(self) -> int:
        """How many entries there are."""
        return sum(1 for _ in self.entries())

    def at(self, zoom: int, column: int, row: int) -> Iterator[bytes]:
        entry = self.entry(zoom, column, row)
        if entry is not None and entry.length <= LIMIT:
            data, why = Blocks(self.ranges, self.header.data, [entry]).of(entry)
            if why is None:
                yield data


def _packed(ranges: Ranges, offset: int, length: int) -> bytes:
    """A directory as it is stored. Nothing is reserved for a length that was read and can't be right."""
    if length > 2 * LIMIT_OF_DIRECTORY:
        raise NotASource(f"a directory is larger than {LIMIT_OF_DIRECTORY} bytes")
    return ranges.read(offset, length)


def _leaf_of(ranges: Ranges, header: Header, level: _Level) -> List[Entry]:
    """The entries of a leaf directory."""
    if level.offset + level.length > header.leaves.length:
        raise NotASource("a leaf directory is beyond the end of its part of the archive")
    packed = _packed(ranges, header.leaves.offset + level.offset, level.length)
    return entries_of(packed, header.directories, level.first, level.after)


def _from(entries: List[Entry], first: int) -> int:
    """The first entry that has a tile from this id on, or leads to one."""
    at = bisect.bisect_right(entries, first, key=lambda it: it.tile_id)
    return max(0, at - 1)
