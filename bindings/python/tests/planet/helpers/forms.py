"""Databases and folders of other forms than that of one table."""
from __future__ import annotations

import gzip
import pathlib
import sqlite3
import zlib
from typing import Dict, List

from planet.helpers.runs import SAMPLE, Tile

VIEW = """
    CREATE TABLE map (zoom_level INTEGER, tile_column INTEGER, tile_row INTEGER, tile_id TEXT);
    CREATE TABLE images (tile_data BLOB, tile_id TEXT);
    CREATE UNIQUE INDEX map_index ON map (zoom_level, tile_column, tile_row);
    CREATE UNIQUE INDEX images_id ON images (tile_id);
    CREATE VIEW tiles AS SELECT map.zoom_level, map.tile_column, map.tile_row, images.tile_data
        FROM map JOIN images ON images.tile_id = map.tile_id;"""


def write_view(path: pathlib.Path, tiles: List[Tile]) -> None:
    """A database as programs make it that store equal tiles once."""
    database = sqlite3.connect(path)
    database.executescript(VIEW)
    images: Dict[bytes, int] = {}
    for it in tiles:
        number = images.setdefault(it.stored, len(images))
        database.execute("INSERT INTO map VALUES (?, ?, ?, ?)", (it.zoom, it.column, it.tms_row, f"image {number}"))
    database.executemany("INSERT INTO images VALUES (?, ?)", ((data, f"image {number}") for data, number in images.items()))
    database.commit()
    database.close()


def write_folder(folder: pathlib.Path, tiles: List[Tile]) -> None:
    """Files z/x/y with each of the endings, as they are, by gzip and by zlib, and some that are no tiles."""
    for number, it in enumerate(tiles):
        bare = gzip.decompress(it.stored) if it.stored[:2] == b"\x1f\x8b" else it.stored
        stored = [bare, gzip.compress(bare), zlib.compress(bare)][number % 3]
        where = folder / str(it.zoom) / str(it.column)
        where.mkdir(parents=True, exist_ok=True)
        (where / f"{it.row}{['.mvt', '.pbf', '.mvt.gz', '.pbf.gz'][number % 4]}").write_bytes(stored)
    for name in ("metadata.json", "3/0/readme", "3/0/01.mvt", "3/0/x.mvt", "3/first/0.mvt", "31/0/0.mvt", "3/0/0.mvt.part"):
        (folder / name).parent.mkdir(parents=True, exist_ok=True)
        (folder / name).write_bytes(SAMPLE["crossing_edges"].tile)
