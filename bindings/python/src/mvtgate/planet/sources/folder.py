"""A folder with files z/x/y.mvt (or .pbf, also as gzip): zooms, columns, and rows from the north."""
from __future__ import annotations

import contextlib
import os
import re
from typing import Any, Dict, Iterator, List, NamedTuple, Pattern, Tuple

from ..._files import ENDINGS, LIMIT
from ..records import Extent, Partition
from .source import NotASource, Source, SourceChanged, Stored

_NUMBER = re.compile(r"0|[1-9][0-9]{0,9}", re.ASCII)
_ZOOM = re.compile(r"[0-9]|[12][0-9]|30", re.ASCII)
_TILE = re.compile(rf"(0|[1-9][0-9]{{0,9}})({'|'.join(map(re.escape, ENDINGS))})", re.ASCII)


class _File(NamedTuple):
    row: int
    name: str


class Folder(Source):
    """Names that aren't those of tiles are passed over. Tiles that come or go are noticed by their number in a partition."""

    kind = "folder"

    def stamp(self) -> Dict[str, Any]:
        return {}

    def modified(self) -> int:
        return 0

    def check(self, stamp: Dict[str, Any]) -> None:
        if not os.path.isdir(self.path):
            raise SourceChanged(f"{self.path}: there is no such folder any more")

    def _numbers(self, pattern: Pattern[str], *below: int) -> List[int]:
        return sorted(int(it) for it in self._names(*below) if pattern.fullmatch(it))

    def _names(self, *below: int) -> List[str]:
        where = os.path.join(self.path, *map(str, below))
        try:
            return os.listdir(where)
        except NotADirectoryError:
            return []
        except OSError as error:
            raise NotASource(f"{where}: {error.strerror}") from None

    def _files(self, zoom: int, column: int) -> List[_File]:
        """The tiles of a column, in the order of their rows."""
        ranges = self.window.ranges(zoom)
        matches = (_TILE.fullmatch(it) for it in self._names(zoom, column))
        return sorted(_File(int(it[1]), it[0]) for it in matches if it and ranges.has_row(int(it[1])))

    def survey(self) -> List[Extent]:
        extents: Dict[int, Extent] = {}
        for column in self.columns(0):
            (at, first), (_, last) = column.first, column.last
            it = extents.get(column.zoom, Extent(column.zoom, 0, at, at, first, last))
            rows = min(it.first_row, first), max(it.last_row, last)
            extents[column.zoom] = Extent(column.zoom, it.tiles + column.tiles, it.first_column, at, *rows)
        return list(extents.values())

    def columns(self, number: int) -> Iterator[Partition]:
        for zoom in filter(self.window.has_zoom, self._numbers(_ZOOM)):
            ranges = self.window.ranges(zoom)
            for column in (it for it in self._numbers(_NUMBER, zoom) if ranges.first_column <= it <= ranges.last_column):
                files = self._files(zoom, column)
                if files:
                    yield Partition(number, zoom, (column, files[0].row), (column, files[-1].row), len(files))

    def _within(self, partition: Partition) -> Iterator[Tuple[int, _File]]:
        """Column and file of each tile of a partition."""
        first, last = partition.first[0], partition.last[0]
        for column in self._numbers(_NUMBER, partition.zoom):
            if first <= column <= last:
                for file in self._files(partition.zoom, column):
                    if partition.first <= (column, file.row) <= partition.last:
                        yield column, file

    def places(self, partition: Partition) -> Iterator[Tuple[int, int]]:
        return ((column, file.row) for column, file in self._within(partition))

    def tiles(self, partition: Partition) -> Iterator[Stored]:
        for column, file in self._within(partition):
            path = os.path.join(self.path, str(partition.zoom), str(column), file.name)
            try:
                data, size = _read(path)
                yield Stored(column, file.row, data, None, size)
            except OSError as error:
                yield Stored(column, file.row, b"", error.strerror or str(error), 0)

    def northern(self, partition: Partition) -> Tuple[int, int]:
        return partition.first

    def at(self, zoom: int, column: int, row: int) -> Iterator[bytes]:
        for ending in ENDINGS:
            with contextlib.suppress(OSError):
                yield _read(os.path.join(self.path, str(zoom), str(column), f"{row}{ending}"))[0]


def _read(path: str) -> Tuple[bytes, int]:
    """The bytes of a file, but no more than show that it is too large, and how many it has."""
    with open(path, "rb") as file:
        return file.read(LIMIT + 1), os.fstat(file.fileno()).st_size
