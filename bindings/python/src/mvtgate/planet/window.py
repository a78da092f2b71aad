"""Which tiles of a source are judged: those of some zooms, and of a box of the earth."""
from __future__ import annotations

import math
import re
from dataclasses import dataclass
from typing import Any, Dict, Optional, Tuple

LAST_ZOOM = 30
# the numbers of columns and rows that a database may have
_LEAST, _GREATEST = -(2**63), 2**63 - 1
_ZOOMS = re.compile(r"(\d{1,2})(?:-(\d{1,2}))?", re.ASCII)
# where the projection of web maps ends, in degrees
_MOST_NORTH = math.degrees(math.atan(math.sinh(math.pi)))

Box = Tuple[float, float, float, float]


@dataclass(frozen=True)
class Ranges:
    """The first and last column and row, with rows from the north."""

    first_column: int = _LEAST
    last_column: int = _GREATEST
    first_row: int = _LEAST
    last_row: int = _GREATEST

    def has_row(self, row: int) -> bool:
        return self.first_row <= row <= self.last_row

    def southern_rows(self, zoom: int) -> Tuple[int, int]:
        """The first and last row as MBTiles count them, from the south."""
        # (all that a database may have, which another count would make fewer)
        if (self.first_row, self.last_row) == (_LEAST, _GREATEST):
            return _LEAST, _GREATEST
        turned = ((1 << zoom) - 1 - it for it in (self.last_row, self.first_row))
        first, last = (max(_LEAST, min(_GREATEST, it)) for it in turned)
        return first, last


@dataclass(frozen=True)
class Window:
    """Zooms from a first to a last one, and west, south, east and north of a box in degrees. All tiles by default."""

    first_zoom: int = 0
    last_zoom: int = LAST_ZOOM
    box: Optional[Box] = None

    @property
    def is_all(self) -> bool:
        return self == Window()

    def has_zoom(self, zoom: int) -> bool:
        return self.first_zoom <= zoom <= self.last_zoom

    def ranges(self, zoom: int) -> Ranges:
        """The tiles of a zoom that have a part in the box."""
        if self.box is None:
            return Ranges()
        west, south, east, north = self.box
        columns = _cells((west + 180) / 360, (east + 180) / 360, zoom)
        rows = _cells(_down(north), _down(south), zoom)
        return Ranges(*columns, *rows)

    def members(self) -> Optional[Dict[str, Any]]:
        """What the journal's first line has: nothing where it is all."""
        return None if self.is_all else {"zooms": [self.first_zoom, self.last_zoom], "box": None if self.box is None else list(self.box)}


def _down(latitude: float) -> float:
    """How far down the map a latitude is, from 0 to 1."""
    within = math.radians(max(-_MOST_NORTH, min(_MOST_NORTH, latitude)))
    return min(1.0, max(0.0, (1 - math.asinh(math.tan(within)) / math.pi) / 2))


def _cells(first: float, last: float, zoom: int) -> Tuple[int, int]:
    """The cells of a zoom in which a part of the range from 0 to 1 is: of one of no length the cell that it is in."""
    count = 1 << zoom
    begin = min(count - 1, math.floor(first * count))
    return begin, max(begin, math.ceil(last * count) - 1)


def zooms_of(word: str) -> Tuple[int, int]:
    """Zooms as words give them: 14, or 3-10. ValueError where they are none."""
    found = _ZOOMS.fullmatch(word)
    if not found:
        raise ValueError(word)
    first, last = int(found[1]), int(found[2] or found[1])
    if not first <= last <= LAST_ZOOM:
        raise ValueError(word)
    return first, last


def box_of(word: str) -> Box:
    """A box as words give it: west,south,east,north in degrees. ValueError where it is none."""
    west, south, east, north = map(float, word.split(","))
    if not (-180 <= west < east <= 180 and -90 <= south < north <= 90):
        raise ValueError(word)
    return west, south, east, north
