"""What mending made of a tile, and how the report on it is read."""
from __future__ import annotations

import json
from dataclasses import dataclass
from fractions import Fraction
from typing import Any, Dict, Optional, Tuple

from ._faults import Fault


class Refused(ValueError):
    """A tile that can't be mended. `fault` is the one for which it is refused, and true of it."""

    def __init__(self, fault: Fault) -> None:
        super().__init__(fault)
        self.fault = fault

    def __str__(self) -> str:
        return f"not mended: {self.fault}"


@dataclass(frozen=True)
class Change:
    """What became of a feature that had a fault.

    `what` is "mended", or "dropped" where the feature was left out. `layer` and `feature` are its ordinals before any change,
    counted from 0. Of a feature that was mended each pair has what its rings measured before, and what they measure now: twice
    their area, in square units of the tile's coordinates, how many polygons they draw, and how many vertices they have.
    `crossings` says how many crossings of edges were rounded to a position, and `cuts` how many corners were cut. All these are
    None of a feature that was left out.
    """

    layer: int
    feature: int
    what: str
    doubled_area: Optional[Tuple[int, int]] = None
    polygons: Optional[Tuple[int, int]] = None
    vertices: Optional[Tuple[int, int]] = None
    crossings: Optional[int] = None
    cuts: Optional[int] = None

    @property
    def area(self) -> Optional[Tuple[Fraction, Fraction]]:
        """The exact area before and after, in square units of the tile's coordinates; None of a feature that was left out."""
        if self.doubled_area is None:
            return None
        before, after = self.doubled_area
        return Fraction(before, 2), Fraction(after, 2)


@dataclass(frozen=True)
class Mended:
    """A valid tile, and what was changed for it: nothing where it was valid."""

    tile: bytes
    changed: Tuple[Change, ...] = ()


def _pair(it: Any) -> Tuple[int, int]:
    before, after = it
    return int(before), int(after)


def _change(told: Dict[str, Any]) -> Change:
    if told["what"] == "dropped":
        return Change(**told)
    area, polygons, vertices = (_pair(told.pop(key)) for key in ("area", "polygons", "vertices"))
    return Change(doubled_area=area, polygons=polygons, vertices=vertices, **told)


def changes_of_library(text: str) -> Tuple[Change, ...]:
    """The changes of a report that the library wrote."""
    return tuple(_change(it) for it in json.loads(text)["changed"])
