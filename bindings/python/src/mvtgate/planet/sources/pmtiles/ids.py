"""Tile ids of PMTiles: all tiles of zoom 0, then of zoom 1, and so on, each zoom along a Hilbert curve (PMTiles specification,
version 3, section 4)."""
from __future__ import annotations

import functools
from typing import Iterator, NamedTuple


def first_id(zoom: int) -> int:
    """The id of the first tile of a zoom: as many as there are tiles before it."""
    return ((1 << 2 * zoom) - 1) // 3


def zoom_of(tile_id: int) -> int:
    """The zoom of a tile."""
    return ((3 * tile_id + 1).bit_length() - 1) // 2


def _turned(side: int, column: int, row: int, is_east: int, is_south: int) -> tuple[int, int]:
    """The place in a quarter of the curve, which runs through the quarters in different directions."""
    if is_south:
        return column, row
    if is_east:
        return side - 1 - row, side - 1 - column
    return row, column


def place_of(tile_id: int) -> tuple[int, int, int]:
    """Zoom, column and row of a tile."""
    zoom = zoom_of(tile_id)
    left, column, row = tile_id - first_id(zoom), 0, 0
    for level in range(zoom):
        side = 1 << level
        is_east = left >> 1 & 1
        is_south = (left ^ is_east) & 1
        column, row = _turned(side, column, row, is_east, is_south)
        column, row = column + side * is_east, row + side * is_south
        left >>= 2
    return zoom, column, row


def id_of(zoom: int, column: int, row: int) -> int:
    """The id of the tile at a place."""
    found = 0
    for level in reversed(range(zoom)):
        side = 1 << level
        is_east, is_south = column >> level & 1, row >> level & 1
        found += (3 * is_east ^ is_south) << 2 * level
        column, row = _turned(side, column & side - 1, row & side - 1, is_east, is_south)
    return first_id(zoom) + found


class Box(NamedTuple):
    """Columns and rows from the first to the last."""

    first_column: int
    last_column: int
    first_row: int
    last_row: int

    def around(self, other: Box) -> Box:
        """A box around both."""
        first, last = min(self.first_column, other.first_column), max(self.last_column, other.last_column)
        return Box(first, last, min(self.first_row, other.first_row), max(self.last_row, other.last_row))

    def has_part_of(self, other: Box) -> bool:
        """Whether they have a tile in common."""
        is_beside = other.last_column < self.first_column or self.last_column < other.first_column
        return not (is_beside or other.last_row < self.first_row or self.last_row < other.first_row)


def _squares(first: int, after: int) -> Iterator[tuple[int, int]]:
    """The ids of a range of one zoom, cut into squares: the first id of each, and its level, of which 2 ** level is the side.

    Ids that are a multiple of a power of four, and as many as that power, are those of a square.
    """
    zoom = zoom_of(first)
    start, at = first_id(zoom), first
    while at < after:
        level = 0
        while level < zoom and not (at - start) & (1 << 2 * level + 2) - 1 and at + (1 << 2 * level + 2) <= after:
            level += 1
        yield at, level
        at += 1 << 2 * level


def _box_of_square(at: int, level: int) -> Box:
    _, column, row = place_of(at)
    side = (1 << level) - 1
    column, row = column & ~side, row & ~side
    return Box(column, column + side, row, row + side)


def box_of(first: int, last: int) -> Box:
    """A box around all tiles from one id to another of the same zoom, in a time that grows with the zoom alone."""
    return functools.reduce(Box.around, (_box_of_square(*it) for it in _squares(first, last + 1)))


def ids_within(first: int, after: int, box: Box) -> Iterator[range]:
    """The ids of a range of one zoom whose tiles are in a box, in order."""
    waiting = list(_squares(first, after))[::-1]
    while waiting:
        at, level = waiting.pop()
        it = _box_of_square(at, level)
        if not box.has_part_of(it):
            continue
        if level == 0 or box.around(it) == box:
            yield range(at, at + (1 << 2 * level))
            continue
        quarter = 1 << 2 * (level - 1)
        waiting += [(at + number * quarter, level - 1) for number in (3, 2, 1, 0)]
