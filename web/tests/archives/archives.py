#!/usr/bin/env python3
"""Archives for the tests of the page: archives.py FOLDER writes them there, with their tiles in tiles.json.

MBTiles files are written by Python's sqlite3, in the schemas of several writers, and one by Debian's GDAL; PMTiles archives by the writer
of the planet run's tests.
"""
from __future__ import annotations

import base64
import gzip
import hashlib
import json
import pathlib
import sqlite3
import subprocess
import sys
from typing import Callable, Dict, List, NamedTuple

TOP = pathlib.Path(__file__).resolve().parents[3]
sys.path.append(str(TOP / "bindings/python/tests"))
from planet.helpers.archives import archive, directory, varint, write_archive

PLACE = "zoom_level INTEGER, tile_column INTEGER, tile_row INTEGER"
ON_PLACE = "(zoom_level, tile_column, tile_row)"


class Stored(NamedTuple):
    """A tile, with its row from the north."""

    zoom: int
    column: int
    row: int
    stored: bytes

    @property
    def tms_row(self) -> int:
        return (1 << self.zoom) - 1 - self.row


def sample(name: str) -> bytes:
    return (TOP / f"tiles/{name}.mvt").read_bytes()


def town() -> List[Stored]:
    """The tiles of a town at some zooms, of which some are the same; one is large, and one isn't packed."""
    tiles = [Stored(0, 0, 0, gzip.compress(sample("point"), mtime=0)), Stored(3, 4, 2, gzip.compress(sample("crossing_edges"), mtime=0))]
    kinds = [gzip.compress(sample(name), mtime=0) for name in ("point", "hole_in_hole", "writers_order")]
    tiles += [Stored(10, 530 + at % 9, 350 + at // 9, kinds[at % 3]) for at in range(63)]
    large = b"".join(hashlib.sha512(bytes([at % 256, at // 256])).digest() for at in range(4000))
    return tiles + [Stored(14, 8802, 5373, large), Stored(14, 8803, 5373, sample("crossing_edges"))]


def crowd() -> List[Stored]:
    """So many tiles that trees of small pages have four levels."""
    return [Stored(9, at // 100, at % 100, b"%d" % (at % 977)) for at in range(20_000)]


def database(path: pathlib.Path, script: str, page: int = 4096, encoding: str = "UTF-8") -> sqlite3.Connection:
    made = sqlite3.connect(path)
    made.executescript(f"PRAGMA page_size={page}; PRAGMA encoding='{encoding}'; PRAGMA synchronous=OFF; PRAGMA journal_mode=OFF; {script}")
    return made


def whole(path: pathlib.Path, tiles: List[Stored], script: str, page: int = 4096, encoding: str = "UTF-8") -> None:
    """A database with all in one table."""
    made = database(path, f"CREATE TABLE metadata (name text, value text); {script}", page, encoding)
    made.executemany("INSERT INTO tiles (zoom_level, tile_column, tile_row, tile_data) VALUES (?, ?, ?, ?)", [(it.zoom, it.column, it.tms_row, it.stored) for it in tiles])
    made.commit()
    made.close()


def in_two(path: pathlib.Path, tiles: List[Stored], script: str, places: str, contents: str, name_of: Callable[[bytes], object]) -> None:
    """A database with places in one table, and contents in another one, each once."""
    made = database(path, script)
    names: Dict[bytes, object] = {it.stored: name_of(it.stored) for it in tiles}
    made.executemany(f"INSERT INTO {contents} VALUES (?, ?)", [(stored, name) for stored, name in names.items()])
    made.executemany(f"INSERT INTO {places} VALUES (?, ?, ?, ?)", [(it.zoom, it.column, it.tms_row, names[it.stored]) for it in tiles])
    made.commit()
    made.close()


TABLE = f"CREATE TABLE tiles ({PLACE}, tile_data BLOB);"
INDEX = f"CREATE UNIQUE INDEX tile_index ON tiles {ON_PLACE};"
SHALLOW = f"""
    CREATE TABLE tiles_data (tile_data BLOB, tile_data_id INTEGER PRIMARY KEY);
    CREATE TABLE tiles_shallow ({PLACE}, tile_data_id INTEGER, PRIMARY KEY {ON_PLACE}) WITHOUT ROWID;
    CREATE VIEW tiles AS SELECT zoom_level, tile_column, tile_row, tile_data FROM tiles_shallow JOIN tiles_data USING (tile_data_id);"""
IMAGES = f"""
    CREATE TABLE map ({PLACE}, tile_id TEXT);
    CREATE TABLE images (tile_data BLOB, tile_id TEXT);
    CREATE UNIQUE INDEX map_index ON map {ON_PLACE};
    CREATE UNIQUE INDEX images_id ON images (tile_id);
    CREATE VIEW tiles AS SELECT zoom_level, tile_column, tile_row, tile_data FROM map JOIN images ON images.tile_id = map.tile_id;"""


def write(folder: pathlib.Path) -> Dict[str, List[Stored]]:
    """Writes all, and returns their tiles by their names."""
    tiles, many = town(), crowd()
    whole(folder / "plain.mbtiles", tiles, TABLE + INDEX)
    whole(folder / "small_pages.mbtiles", tiles, TABLE + INDEX, 512)
    whole(folder / "large_pages.mbtiles", tiles, TABLE + INDEX, 65536)
    whole(folder / "utf16.mbtiles", tiles, TABLE + INDEX, encoding="UTF-16le")
    whole(folder / "unique.mbtiles", tiles, f'CREATE TABLE "tiles" ({PLACE}, tile_data BLOB NOT NULL, UNIQUE {ON_PLACE});')
    whole(folder / "without_row_ids.mbtiles", tiles, f"CREATE TABLE tiles (tile_data BLOB, {PLACE}, PRIMARY KEY {ON_PLACE}) WITHOUT ROWID;")
    in_two(folder / "images.mbtiles", tiles, IMAGES, "map", "images", lambda it: hashlib.md5(it).hexdigest())
    numbers = {it.stored: at for at, it in enumerate(tiles)}
    in_two(folder / "shallow.mbtiles", tiles, SHALLOW, "tiles_shallow", "tiles_data", lambda it: numbers[it])
    whole(folder / "many.mbtiles", many, TABLE + INDEX, 512)
    write_archive(folder / "plain.pmtiles", tiles)
    write_archive(folder / "leaves.pmtiles", tiles, leaf=5, packing=1)
    write_archive(folder / "many.pmtiles", many, leaf=300)
    return {it.name: many if it.stem == "many" else tiles for it in sorted(folder.glob("*.*tiles"))}


def lakes(folder: pathlib.Path) -> List[Stored]:
    """Has GDAL write lakes.mbtiles, and returns its tiles, as sqlite3 reads them."""
    rings = [[[8 + at / 10, 47], [8.05 + at / 10, 47], [8.05 + at / 10, 47.04], [8 + at / 10, 47.04], [8 + at / 10, 47]] for at in range(9)]
    features = [{"type": "Feature", "properties": {"name": f"lake {at}"}, "geometry": {"type": "Polygon", "coordinates": [it]}} for at, it in enumerate(rings)]
    (folder / "lakes.geojson").write_text(json.dumps({"type": "FeatureCollection", "features": features}))
    words = ["-f", "MBTILES", "lakes.mbtiles", "lakes.geojson", "-dsco", "MINZOOM=0", "-dsco", "MAXZOOM=10"]
    subprocess.run(["ogr2ogr", *words], cwd=folder, check=True)
    made = sqlite3.connect(folder / "lakes.mbtiles")
    found = [Stored(zoom, column, 2**zoom - 1 - row, data) for zoom, column, row, data in made.execute("SELECT * FROM tiles")]
    made.close()
    return found


def hostile() -> Dict[str, bytes]:
    """Archives that lead round in circles, overlap, or name what isn't there."""
    # (a directory of one leaf, itself, has five bytes)
    circle = directory([(0, 0, 0, 5)])
    return {
        "circle": archive(circle, circle, b"", packing=1),
        "count": archive(varint(1 << 40), b"", b"", packing=1),
        "overlap": archive(directory([(0, 5, 0, 4), (3, 1, 0, 4)]), b"", b"tile", packing=1),
        "number": archive(directory([(0, 1, 1 << 60, 4)]), b"", b"tile", packing=1),
        "far": archive(directory([(0, 1, 1000, 4)]), b"", b"tile", packing=1),
        "nothing": archive(directory([(0, 1, 0, 0)]), b"", b"tile", packing=1),
        "bomb": archive(gzip.compress(bytes(64 << 20)), b"", b""),
        "cut": archive(directory([(0, 1, 0, 4)])[:-1], b"", b"tile", packing=1),
        "more": archive(directory([(0, 1, 0, 4)]) + b"\0", b"", b"tile", packing=1),
        "leaf": archive(directory([(0, 0, 0, 99)]), b"leaf", b"", packing=1),
        "empty_leaves": archive(directory([(at * 4, 0, 0, 1) for at in range(500)]), b"\0", b"", packing=1),
    }


def main() -> None:
    folder = pathlib.Path(sys.argv[1])
    written = {**write(folder), "lakes.mbtiles": lakes(folder)}
    expected = {name: [[*it[:3], base64.b64encode(it.stored).decode()] for it in tiles] for name, tiles in written.items()}
    # (these aren't opened)
    whole(folder / "no_index.mbtiles", town(), TABLE)
    whole(folder / "backwards.mbtiles", town(), TABLE + INDEX.replace("zoom_level", "zoom_level DESC"))
    whole(folder / "empty.mbtiles", [], TABLE + INDEX)
    database(folder / "other.mbtiles", "CREATE TABLE roads (id INTEGER PRIMARY KEY, name TEXT);").close()
    write_archive(folder / "empty.pmtiles", [])
    for name, content in hostile().items():
        (folder / f"{name}.pmtiles").write_bytes(content)
    (folder / "tiles.json").write_text(json.dumps(expected))


if __name__ == "__main__":
    main()
