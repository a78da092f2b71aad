"""The files of bench/planet: real tiles again and again, at places that differ."""
from __future__ import annotations

import gzip
import os
import pathlib
import sqlite3
import sys
from typing import Iterator, List, Sequence, Tuple

# (before the folder of the programs, whose planet.py is another one)
sys.path.insert(0, str(pathlib.Path(__file__).resolve().parents[2] / "bindings/python/tests"))
from planet.helpers.archives import archive, directory

LEAF = 4096  # entries of a leaf directory
DATA_LENGTH = slice(64, 72)  # in the header of a PMTiles archive
MTIME = slice(4, 8)  # in the head of a gzip stream


def tiles_of(folder: str) -> List[bytes]:
    """The tiles of a folder, in the order of their names."""
    return [it.read_bytes() for it in sorted(pathlib.Path(folder).glob("*.mvt"))]


def _rows(packed: Sequence[bytes], count: int) -> Iterator[Tuple[int, int, int, bytes]]:
    """So many tiles at one zoom, column by column, the first one again when all have had their turn."""
    zoom = _zoom_of(count)
    for at in range(count):
        yield zoom, at >> zoom, at & (1 << zoom) - 1, packed[at % len(packed)]


def write(path: str, tiles: Sequence[bytes], count: int) -> int:
    """Writes an MBTiles file, or a PMTiles archive, of so many tiles, each as gzip, and returns its size."""
    packed = [gzip.compress(it, mtime=0) for it in tiles]
    pathlib.Path(path).unlink(missing_ok=True)
    if path.endswith(".pmtiles"):
        _write_archive(path, packed, count)
    else:
        _write_database(path, packed, count)
    return os.path.getsize(path)


def _zoom_of(count: int) -> int:
    """The least zoom that has so many tiles."""
    return next(zoom for zoom in range(31) if 4**zoom >= count)


def _write_archive(path: str, packed: Sequence[bytes], count: int) -> None:
    """The first tiles of a zoom along the curve. Each has bytes of its own, by the time in its head: equal ones are judged once."""
    first = (4 ** _zoom_of(count) - 1) // 3
    root, leaves, offset = [], bytearray(), 0
    for begin in range(0, count, LEAF):
        entries = []
        for at in range(begin, min(begin + LEAF, count)):
            entries.append((first + at, 1, offset, len(packed[at % len(packed)])))
            offset += entries[-1][3]
        leaf = gzip.compress(directory(entries))
        root.append((entries[0][0], 0, len(leaves), len(leaf)))
        leaves += leaf
    head = bytearray(archive(gzip.compress(directory(root)), bytes(leaves), b""))
    head[DATA_LENGTH] = offset.to_bytes(8, "little")
    with open(path, "wb") as file:
        file.write(head)
        for at in range(count):
            tile = bytearray(packed[at % len(packed)])
            tile[MTIME] = at.to_bytes(4, "little")
            file.write(tile)


def _write_database(path: str, packed: Sequence[bytes], count: int) -> None:
    database = sqlite3.connect(path)
    database.executescript(
        """PRAGMA journal_mode = OFF; PRAGMA synchronous = OFF;
        CREATE TABLE tiles (zoom_level INTEGER, tile_column INTEGER, tile_row INTEGER, tile_data BLOB);"""
    )
    database.executemany("INSERT INTO tiles VALUES (?, ?, ?, ?)", _rows(packed, count))
    database.execute("CREATE UNIQUE INDEX tile_index ON tiles (zoom_level, tile_column, tile_row)")
    database.commit()
    database.close()
