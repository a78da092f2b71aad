"""The copy of an MBTiles file: the same database, of which some rows have other bytes.

A table `tiles` is changed itself. A view joins a table that has a number for each place with one that has the bytes for each
number, as `map` and `images` or `tiles_shallow` and `tiles_data`; there the bytes are changed, which serve all their places.
"""
from __future__ import annotations

import contextlib
import os
import shutil
import sqlite3
from dataclasses import dataclass
from typing import Dict, Iterator, List, Optional, Set, Tuple

from ..sources.mbtiles import uri_of
from .copy import Copy, NoCopy, Replaced

_PLACE = ("zoom_level", "tile_column", "tile_row")
_AT = "zoom_level = ? AND tile_column = ? AND tile_row = ?"
_DATA = "tile_data"
_SAME = "CAST(tile_data AS BLOB) = ?"


def _quoted(name: str) -> str:
    return '"' + name.replace('"', '""') + '"'


@dataclass(frozen=True)
class _Shared:
    """Tables whose join is the view `tiles`: that of places, that of bytes, and the column by which they are joined."""

    places: str
    data: str
    key: str


def _columns(database: sqlite3.Connection) -> Dict[str, Set[str]]:
    """The columns of each table."""
    names: List[Tuple[str]] = database.execute("SELECT name FROM sqlite_master WHERE type = 'table'").fetchall()
    return {name: {row[1].lower() for row in database.execute(f"PRAGMA table_info({_quoted(name)})")} for (name,) in names}


def _shared(database: sqlite3.Connection) -> _Shared:
    """Those of a view. NoCopy where there isn't just one such pair."""
    columns = _columns(database)
    found = [
        _Shared(places, data, key)
        for places, of_places in columns.items()
        if of_places >= set(_PLACE) and _DATA not in of_places
        for data, of_data in columns.items()
        if _DATA in of_data and places != data
        for key in of_data & of_places
    ]
    if len(found) != 1:
        raise NoCopy("its view of tiles isn't one over a table of places and a table of bytes, which can be mended")
    return found[0]


def _update_of(database: sqlite3.Connection) -> str:
    """The statement that puts bytes (first) at a place (next) where there were others (last)."""
    found: Optional[Tuple[str]] = database.execute("SELECT type FROM sqlite_master WHERE lower(name) = 'tiles'").fetchone()
    if database.execute("SELECT count(*) FROM sqlite_master WHERE type = 'trigger'").fetchone()[0]:
        raise NoCopy("it has triggers, which would change more than a tile")
    if found is None or found[0] == "table":
        return f"UPDATE tiles SET tile_data = ? WHERE {_AT} AND {_SAME}"
    it = _shared(database)
    key = _quoted(it.key)
    numbers = f"SELECT {key} FROM {_quoted(it.places)} WHERE {_AT}"
    return f"UPDATE {_quoted(it.data)} SET tile_data = ? WHERE {key} IN ({numbers}) AND {_SAME}"


def _settle(database: sqlite3.Connection) -> None:
    """Has what was written be in the file itself, and nothing in a log beside it, which wouldn't go with it. (A database that is closed
    says nothing where it has no room for that.)"""
    is_busy, _, _ = database.execute("PRAGMA wal_checkpoint(TRUNCATE)").fetchone()
    if is_busy:
        raise OSError("another program reads the copy while it is made")


class CopyOfMbtiles(Copy):
    """Without a log of its own while it is written: what a call that was killed leaves is begun anew."""

    def check(self) -> None:
        database = sqlite3.connect(uri_of(self.source), uri=True)
        with contextlib.closing(database):
            try:
                _update_of(database)
            except sqlite3.Error as error:
                raise NoCopy(f"{self.source}: {error}") from None
            except NoCopy as error:
                raise NoCopy(f"{self.source}: {error}") from None

    def fill(self, tiles: Iterator[Replaced]) -> None:
        shutil.copyfile(self.source, self.part)
        try:
            with contextlib.closing(sqlite3.connect(self.part, isolation_level=None)) as database:
                self._change(database, tiles)
        except sqlite3.Error as error:
            raise OSError(f"{error}") from None
        with open(self.part, "rb") as file:
            os.fsync(file.fileno())

    def _change(self, database: sqlite3.Connection, tiles: Iterator[Replaced]) -> None:
        # (a file that says of itself that it is written by WAL is to say so afterwards)
        if database.execute("PRAGMA journal_mode").fetchone()[0] != "wal":
            database.execute("PRAGMA journal_mode = OFF")
        database.execute("PRAGMA synchronous = OFF")
        update = _update_of(database)
        database.execute("BEGIN")
        for it in tiles:
            place = (it.place.zoom, it.place.column, it.place.tms_row)
            database.execute(update, (it.after, *place, it.before))
            # (bytes that several places share are changed with the first of them)
            if not database.execute(f"SELECT 1 FROM tiles WHERE {_AT} AND {_SAME}", (*place, it.after)).fetchone():
                raise NoCopy(f"{self.source}: tile {it.place.zoom}/{it.place.column}/{it.place.row} wasn't changed")
        database.execute("COMMIT")
        _settle(database)
