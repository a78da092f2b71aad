"""What a run asks of a source of tiles."""
from __future__ import annotations

import abc
import dataclasses
import os
from typing import Any, ClassVar, Dict, Iterator, List, NamedTuple, Optional, Tuple

from ..endings import Refused
from ..records import Extent, Partition
from ..window import Window


class NotASource(Refused):
    """A path that holds no tiles, or whose tiles can't be read, with the reason."""


class SourceChanged(Refused):
    """A source that isn't what it was when the run began, with what is different."""


class Stored(NamedTuple):
    """A tile as it is stored. The row is from the north. Where the bytes couldn't be read, `error` says why.

    `size` is how many bytes are stored, which are more than those of `data` where there are too many to read. Tiles of one source
    with the same `content` have the same bytes, stored once.
    """

    column: int
    row: int
    data: bytes
    error: Optional[str]
    size: int
    content: Optional[Tuple[int, int]] = None


class Source(abc.ABC):
    """Tiles by zoom, column and row, those of a window alone but for `at`. Each process opens a source for itself, by its path."""

    kind: ClassVar[str]

    def __init__(self, path: str, window: Window = Window()) -> None:
        self.path = os.path.abspath(path)
        self.window = window

    @abc.abstractmethod
    def stamp(self) -> Dict[str, Any]:
        """What has to stay the same while it is judged. It is the same for a copy on another machine."""

    @abc.abstractmethod
    def modified(self) -> int:
        """When it was last changed, as this machine says. For a copy on another one that is another time."""

    @abc.abstractmethod
    def check(self, stamp: Dict[str, Any]) -> None:
        """SourceChanged where it isn't that of the stamp, or was changed since it was opened."""

    @abc.abstractmethod
    def survey(self) -> List[Extent]:
        """The zooms that there are, from the smallest."""

    @abc.abstractmethod
    def columns(self, number: int) -> Iterator[Partition]:
        """Each column as a partition, by zoom and column. `number` is that of the source in the run."""

    @abc.abstractmethod
    def places(self, partition: Partition) -> Iterator[Tuple[int, int]]:
        """Column and row, as the source counts it, of the tiles of a partition."""

    @abc.abstractmethod
    def tiles(self, partition: Partition) -> Iterator[Stored]:
        """The tiles of a partition."""

    @abc.abstractmethod
    def northern(self, partition: Partition) -> Tuple[int, int]:
        """Column and row of a partition's first tile, with the row from the north."""

    @abc.abstractmethod
    def at(self, zoom: int, column: int, row: int) -> Iterator[bytes]:
        """The stored bytes at a place, with its row from the north: one tile, or more where a source has several there."""

    def close(self) -> None:
        """Lets go of its files. Nothing more may be asked of it."""

    def tile(self, zoom: int, column: int, row: int) -> Optional[bytes]:
        """The stored bytes of the tile at a place. None where they can't be read."""
        try:
            return next(self.at(zoom, column, row), None)
        except NotASource:
            return None

    def partitions(self, number: int, tiles: int) -> Iterator[Partition]:
        """All tiles once, in parts of at most so many."""
        part: Optional[Partition] = None
        for column in self.columns(number):
            if part and part.zoom == column.zoom and part.tiles + column.tiles <= tiles:
                part = dataclasses.replace(part, last=column.last, tiles=part.tiles + column.tiles)
                continue
            if part:
                yield from self.split(part, tiles)
            part = column
        if part:
            yield from self.split(part, tiles)

    def split(self, partition: Partition, tiles: int) -> Iterator[Partition]:
        """The tiles of a partition, in parts of at most so many."""
        if partition.tiles <= tiles:
            yield partition
            return
        first = last = partition.first
        count = 0
        for place in self.places(partition):
            # (two tiles at one place stay together)
            if count >= tiles and place != last:
                yield dataclasses.replace(partition, first=first, last=last, tiles=count)
                count = 0
            first = first if count else place
            last = place
            count += 1
        if count:
            yield dataclasses.replace(partition, first=first, last=last, tiles=count)
