"""MBTiles files of the sample tiles, and what a run over them has to say, from the expected answers beside the samples."""
from __future__ import annotations

import gzip
import json
import pathlib
import sqlite3
from typing import Any, Dict, Iterator, List, NamedTuple, Optional, Tuple

TOP = pathlib.Path(__file__).resolve().parents[2]


class Sample(NamedTuple):
    """A sample tile, and its fault by the profile 'polygon'."""

    tile: bytes
    fault: Optional[Dict[str, Any]]


def samples() -> List[Sample]:
    """Those of which one answer alone is accepted, in the order of their names."""
    found = []
    for path in sorted((TOP / "tiles").glob("*.mvt")):
        lines = (TOP / "tiles/expected" / f"{path.stem}.check").read_text().splitlines()
        if len(lines) == 1:
            answer = json.loads(lines[0])
            found.append(Sample(path.read_bytes(), None if answer == {"ok": True} else answer))
    return found


def places(count: int) -> Iterator[Tuple[int, int, int]]:
    """Zoom, column and row from the south of so many tiles: all of each zoom, from 0 on, as long as there are some left."""
    zoom = 0
    while count > 0:
        side = 1 << zoom
        for at in range(min(count, side * side)):
            yield zoom, at // side, at % side
        count -= side * side
        zoom += 1


def make(path: pathlib.Path, count: int) -> List[Dict[str, Any]]:
    """Writes a file of so many tiles, and returns the lines that faults.jsonl has to have, without what can't be known before."""
    all_samples, lines = samples(), []
    packed = [gzip.compress(it.tile, mtime=0) for it in all_samples]
    database = sqlite3.connect(path)
    database.execute("CREATE TABLE tiles (zoom_level INTEGER, tile_column INTEGER, tile_row INTEGER, tile_data BLOB)")
    for at, (zoom, column, row) in enumerate(places(count)):
        number = at % len(all_samples)
        database.execute("INSERT INTO tiles VALUES (?, ?, ?, ?)", (zoom, column, row, packed[number]))
        sample = all_samples[number]
        if sample.fault is not None:
            northern = (1 << zoom) - 1 - row
            place = {"zoom": zoom, "column": column, "row": northern, "tms_row": row}
            lines.append({**place, "size": len(sample.tile), "fault": sample.fault, "confirmed": True})
    database.execute("CREATE UNIQUE INDEX tile_index ON tiles (zoom_level, tile_column, tile_row)")
    database.commit()
    database.close()
    return lines


def change(path: pathlib.Path) -> None:
    """Changes one tile of a file in place."""
    database = sqlite3.connect(path)
    # (the same number of bytes, so that the file keeps its size)
    where = "WHERE (zoom_level, tile_column, tile_row) = (3, 5, 5)"
    database.execute(f"UPDATE tiles SET tile_data = zeroblob(length(tile_data)) {where}")
    database.commit()
    database.close()
