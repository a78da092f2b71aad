"""How many tiles there are in each cell of the map, how many have a fault, and which code is the worst there."""
from __future__ import annotations

import base64
import gzip
import json
from array import array
from dataclasses import dataclass, field
from typing import Any, Dict, List, Tuple

from ..records import Extent, Finding, Judged, Partition
from ..sources.pmtiles.ids import Box, box_of
from .classes import worse


def _numbers(kind: str, length: int) -> array[int]:
    return array(kind, bytes(array(kind).itemsize * length))


@dataclass
class ZoomCells:
    """The cells of a source at a zoom, row by row from the north-west."""

    extent: Extent
    tiles: int = 0
    faulty: int = 0
    unjudged: int = 0
    worst: int = 0
    columns: int = field(init=False)
    rows: int = field(init=False)

    def __post_init__(self) -> None:
        column, row = self.extent.cell(self.extent.last_column, self.extent.last_row)
        self.columns, self.rows = column + 1, row + 1
        self._shift = self.extent.shift
        length = self.columns * self.rows
        # (a cell has at most 4 ** shift tiles)
        kind = "I" if self._shift < 16 else "Q"
        self._tiles, self._faulty, self._unjudged = (_numbers(kind, length) for _ in range(3))
        self._worst = _numbers("H", length)
        self._lost = _numbers("B", length)

    def add(self, judged: Judged) -> None:
        """Counts a partition that was judged. Its cells are (column, row, tiles)."""
        self.tiles += judged.partition.tiles
        for column, row, tiles in judged.cells:
            self._tiles[row * self.columns + column] += tiles
        for it in judged.findings:
            self._add_finding(it)

    def _add_finding(self, it: Finding) -> None:
        column, row = (it.column - self.extent.first_column) >> self._shift, (it.row - self.extent.first_row) >> self._shift
        at = row * self.columns + column
        if it.fault is None:
            self.unjudged += 1
            self._unjudged[at] += 1
            return
        code = it.fault["code"]
        self.faulty += 1
        self._faulty[at] += 1
        self._worst[at] = worse(self._worst[at], code)
        self.worst = worse(self.worst, code)

    def box_of(self, partition: Partition, kind: str) -> Box:
        """A box around the tiles of a partition, by the kind of its source."""
        if kind == "pmtiles":
            return box_of(partition.first[1], partition.last[1])
        (first_column, first_row), (last_column, last_row) = partition.first, partition.last
        if first_column != last_column:
            first_row, last_row = self.extent.first_row, self.extent.last_row
        elif kind == "mbtiles":
            first_row, last_row = ((1 << partition.zoom) - 1 - it for it in (last_row, first_row))
        return Box(first_column, last_column, first_row, last_row)

    def add_unjudged(self, partition: Partition, kind: str) -> None:
        """Marks the cells of a partition that wasn't judged. Where in them its tiles are isn't known."""
        self.tiles += partition.tiles
        self.unjudged += partition.tiles
        box = self.box_of(partition, kind)
        left, top = self.extent.cell(box.first_column, box.first_row)
        right, bottom = self.extent.cell(box.last_column, box.last_row)
        for row in range(max(top, 0), min(bottom + 1, self.rows)):
            for column in range(max(left, 0), min(right + 1, self.columns)):
                self._lost[row * self.columns + column] = 1

    def members(self) -> Dict[str, Any]:
        """What the script of the report reads: the numbers of the cells are packed, since there may be many."""
        cells = {
            "tiles": self._tiles.tolist(),
            "faulty": self._faulty.tolist(),
            "unjudged": self._unjudged.tolist(),
            "worst": self._worst.tolist(),
            "lost": self._lost.tolist(),
        }
        packed = gzip.compress(json.dumps(cells, separators=(",", ":")).encode(), mtime=0)
        return {
            "zoom": self.extent.zoom,
            "shift": self._shift,
            "firstColumn": self.extent.first_column,
            "lastColumn": self.extent.last_column,
            "firstRow": self.extent.first_row,
            "lastRow": self.extent.last_row,
            "columns": self.columns,
            "rows": self.rows,
            "cells": base64.b64encode(packed).decode(),
        }


class TileMap:
    """The cells of all sources and zooms of a run, in the order of the sources and zooms."""

    def __init__(self, sources: List[Dict[str, Any]]) -> None:
        self._kinds = [it["kind"] for it in sources]
        extents = ((at, Extent(**extent)) for at, it in enumerate(sources) for extent in it["zooms"])
        found = {(at, extent.zoom): extent for at, extent in extents}
        self.zooms: Dict[Tuple[int, int], ZoomCells] = {key: ZoomCells(found[key]) for key in sorted(found)}

    def add(self, judged: Judged) -> None:
        self.zooms[judged.partition.source, judged.partition.zoom].add(judged)

    def add_unjudged(self, partition: Partition) -> None:
        self.zooms[partition.source, partition.zoom].add_unjudged(partition, self._kinds[partition.source])

    def box_of(self, partition: Partition) -> Box:
        """A box around the tiles of a partition."""
        return self.zooms[partition.source, partition.zoom].box_of(partition, self._kinds[partition.source])
