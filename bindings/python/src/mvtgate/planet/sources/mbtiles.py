"""An MBTiles file: a database of SQLite with a table, or a view, of tiles (MBTiles 1.3)."""
from __future__ import annotations

import contextlib
import os
import re
import sqlite3
import threading
import urllib.parse
import weakref
from typing import Any, Dict, Iterator, List, Optional, Tuple

from ..._files import LIMIT
from ..records import Extent, Partition
from ..window import LAST_ZOOM, Window
from .source import NotASource, Source, SourceChanged, Stored

# the head of a database's file, with a number that each change of the file counts up
_HEAD = 100

_SURVEY = """
    SELECT zoom_level, count(*), min(tile_column), max(tile_column), min(tile_row), max(tile_row),
        sum(typeof(tile_column) = 'integer' AND typeof(tile_row) = 'integer')
    FROM tiles GROUP BY zoom_level ORDER BY zoom_level"""
_SURVEY_OF_WINDOW = """
    SELECT zoom_level, count(*), min(tile_column), max(tile_column), min(tile_row), max(tile_row),
        sum(typeof(tile_column) = 'integer' AND typeof(tile_row) = 'integer')
    FROM tiles WHERE zoom_level = ? AND tile_column BETWEEN ? AND ? AND tile_row BETWEEN ? AND ? GROUP BY zoom_level"""
_COLUMNS_OF_WINDOW = """
    SELECT zoom_level, tile_column, count(*), min(tile_row), max(tile_row)
    FROM tiles WHERE zoom_level = ? AND tile_column BETWEEN ? AND ? AND tile_row BETWEEN ? AND ?
    GROUP BY zoom_level, tile_column ORDER BY zoom_level, tile_column"""
_COLUMNS = """
    SELECT zoom_level, tile_column, count(*), min(tile_row), max(tile_row)
    FROM tiles GROUP BY zoom_level, tile_column ORDER BY zoom_level, tile_column"""
# (the plus keeps the index for the range before it)
_BETWEEN = """zoom_level = ? AND (tile_column, tile_row) BETWEEN (?, ?) AND (?, ?) AND +tile_row BETWEEN ? AND ?
    ORDER BY tile_column, tile_row"""
_PLACES = f"SELECT tile_column, tile_row FROM tiles WHERE {_BETWEEN}"
# (a text is read as its bytes, of which `length` counts the characters. What is too large for a tile isn't read.)
_SIZE = "CASE typeof(tile_data) WHEN 'text' THEN length(CAST(tile_data AS BLOB)) ELSE length(tile_data) END"
_TILES = f"""
    SELECT tile_column, tile_row, {_SIZE}, CASE WHEN {_SIZE} <= {LIMIT} THEN CAST(tile_data AS BLOB) END
    FROM tiles WHERE {_BETWEEN}"""
_AT = "SELECT CAST(tile_data AS BLOB) FROM tiles WHERE zoom_level = ? AND tile_column = ? AND tile_row = ?"
# what SQLite says of a query that finds a part's tiles without going over all tiles
_BY_INDEX = re.compile(r"SEARCH .*\(zoom_level=\? AND .*tile_column")


class Mbtiles(Source):
    """Read without locks, so that a read-only mount will do. Nobody may write to the file meanwhile; `check` finds that out."""

    kind = "mbtiles"

    def __init__(self, path: str, window: Window = Window()) -> None:
        super().__init__(path, window)
        if not os.path.isfile(self.path):
            raise NotASource(f"{path}: there is no such file or folder")
        log = self._log()
        if log is not None:
            raise NotASource(f"{path}: a program is writing to it, or left changes in {log}; close it first")
        self._uri = uri_of(self.path)
        self._modified = self.modified()
        self._of_thread = threading.local()
        self._databases: List[sqlite3.Connection] = []
        # (one that nobody closes stays open until there is a collection, also without this source)
        self._close = weakref.finalize(self, _close_all, self._databases)
        # (at a process's end other threads may still read)
        self._close.atexit = False

    def _log(self) -> Optional[str]:
        """A file with changes that aren't in this one yet, or with what to put back into it. It isn't read: the file is taken as it is."""
        # (SQLite has it beside the file itself, wherever a link to that is)
        real = os.path.realpath(self.path)
        for log in (f"{real}-wal", f"{real}-journal"):
            with contextlib.suppress(FileNotFoundError), open(log, "rb") as file:
                # (a journal that is done with may stay, with zeros at its front)
                if file.read(1).strip(b"\0"):
                    return log
        return None

    def _rows(self, query: str, words: Tuple[Any, ...] = ()) -> Iterator[Tuple[Any, ...]]:
        """The rows of a query, one at a time."""
        try:
            if not hasattr(self._of_thread, "database"):
                # (whichever thread clears away a query that isn't read to its end. Dask's profile holds on to them for a while.)
                self._of_thread.database = sqlite3.connect(self._uri, uri=True, check_same_thread=False)
                self._databases.append(self._of_thread.database)
            yield from self._of_thread.database.execute(query, words)
        except (sqlite3.Error, UnicodeDecodeError) as error:
            # (an error of SQLite may quote what is no text)
            raise NotASource(f"{self.path}: {error}") from None

    def close(self) -> None:
        self._close()

    def _require_index(self) -> None:
        """Without an index each part would cost a walk over all tiles."""
        steps = [row[3] for row in self._rows(f"EXPLAIN QUERY PLAN {_TILES}", (0, 0, 0, 0, 0, 0, 0))]
        if not steps or not _BY_INDEX.match(steps[0]) or any("SCAN" in it or "AUTOMATIC" in it for it in steps):
            index = "CREATE UNIQUE INDEX tile_index ON tiles (zoom_level, tile_column, tile_row)"
            raise NotASource(f"{self.path} has no index for its tiles; where they are a table, make one: {index}")

    def stamp(self) -> Dict[str, Any]:
        with open(self.path, "rb") as file:
            return {"size": os.fstat(file.fileno()).st_size, "head": file.read(_HEAD).hex()}

    def modified(self) -> int:
        return os.stat(self.path).st_mtime_ns

    def check(self, stamp: Dict[str, Any]) -> None:
        try:
            is_same = self.stamp() == stamp and self.modified() == self._modified and self._log() is None
        except OSError as error:
            raise SourceChanged(f"{self.path}: {error.strerror}") from None
        if not is_same:
            raise SourceChanged(f"{self.path} isn't the file that it was when the run began")

    def survey(self) -> List[Extent]:
        self._require_index()
        extents = []
        for zoom, tiles, first_column, last_column, first_row, last_row, whole in self._of_window(_SURVEY, _SURVEY_OF_WINDOW):
            if type(zoom) is not int or not 0 <= zoom <= LAST_ZOOM:
                raise NotASource(f"{self.path}: there is a tile of zoom {zoom!r}")
            if whole != tiles:
                raise NotASource(f"{self.path}: there is a tile at zoom {zoom} whose column or row is no whole number")
            rows = sorted(_turned(zoom, row) for row in (first_row, last_row))
            extents.append(Extent(zoom, tiles, first_column, last_column, *rows))
        return extents

    def columns(self, number: int) -> Iterator[Partition]:
        for zoom, column, tiles, first_row, last_row in self._of_window(_COLUMNS, _COLUMNS_OF_WINDOW):
            yield Partition(number, zoom, (column, first_row), (column, last_row), tiles)

    def _of_window(self, of_all: str, of_zoom: str) -> Iterator[Tuple[Any, ...]]:
        """The rows of a query over all tiles, or of one for each zoom of the window."""
        if self.window.is_all:
            yield from self._rows(of_all)
            return
        for zoom in range(self.window.first_zoom, self.window.last_zoom + 1):
            ranges = self.window.ranges(zoom)
            yield from self._rows(of_zoom, (zoom, ranges.first_column, ranges.last_column, *ranges.southern_rows(zoom)))

    def _words_of(self, partition: Partition) -> Tuple[int, ...]:
        """What a query for the tiles of a partition is given."""
        zoom = partition.zoom
        return (zoom, *partition.first, *partition.last, *self.window.ranges(zoom).southern_rows(zoom))

    def places(self, partition: Partition) -> Iterator[Tuple[int, int]]:
        for column, row in self._rows(_PLACES, self._words_of(partition)):
            yield column, row

    def tiles(self, partition: Partition) -> Iterator[Stored]:
        for column, row, size, data in self._rows(_TILES, self._words_of(partition)):
            yield Stored(column, _turned(partition.zoom, row), data or b"", _why_not_read(size, data), size or 0)

    def northern(self, partition: Partition) -> Tuple[int, int]:
        column, row = partition.first
        return column, _turned(partition.zoom, row)

    def at(self, zoom: int, column: int, row: int) -> Iterator[bytes]:
        return (data for (data,) in self._rows(_AT, (zoom, column, _turned(zoom, row))) if data is not None)


def _close_all(databases: List[sqlite3.Connection]) -> None:
    for it in databases:
        it.close()


def uri_of(path: str) -> str:
    """By which SQLite reads a file without locks. The name may have bytes that are no text, and may begin with two slashes, behind
    which the name of a host would stand."""
    return f"file://{urllib.parse.quote(os.fsencode(os.path.abspath(path)))}?mode=ro&immutable=1"


def _why_not_read(size: Optional[int], data: Optional[bytes]) -> Optional[str]:
    if data is not None:
        return None
    return "there are no bytes in the database (NULL)" if size is None else f"{size} bytes are stored, more than {LIMIT}"


def _turned(zoom: int, row: int) -> int:
    """A row counted from the other side."""
    return (1 << zoom) - 1 - row
