"""Which rows of the tables the features of a tile are of."""
from __future__ import annotations

from dataclasses import dataclass
from typing import Any, Dict, List, Optional, Sequence, Tuple

from mvtgate import Change, Fault, Mended

from .gate import Reason
from .ids import ids_of
from .tiles import Tile

# the codes of faults of bytes that are no tile, of which no part can be read for sure
_WIRE_FAULTS = range(101, 112)


@dataclass(frozen=True)
class Row:
    """A row, by its table's name, which is the layer's, and its id, where the feature has one."""

    layer: Optional[str]
    id: Optional[int]

    def __str__(self) -> str:
        return f"{self.layer} {'without an id' if self.id is None else self.id}"

    @property
    def told(self) -> Dict[str, Any]:
        """The same as JSON."""
        return {"layer": self.layer, "id": self.id}


@dataclass(frozen=True)
class RowChange:
    """What mending made of the feature of a row."""

    row: Row
    change: Change

    @property
    def is_dropped(self) -> bool:
        """Whether it was left out."""
        return self.change.what == "dropped"

    @property
    def areas(self) -> Tuple[float, ...]:
        """The area before and after, in square units of the tile's grid. There is none of a feature that was left out."""
        return tuple(float(it) if it.denominator > 1 else int(it) for it in self.change.area or ())

    @property
    def told(self) -> Dict[str, Any]:
        """The same as JSON."""
        area = {} if self.is_dropped else {"area": self.areas}
        return {**self.row.told, "what": self.change.what, **area}


def _rows(tile: Tile, places: Sequence[Tuple[int, int]]) -> List[Row]:
    """The rows of features, by the ordinals of layer and feature."""
    return [Row(tile.layer(layer), it) for (layer, _), it in zip(places, ids_of(tile.content, places))]


def row_of(tile: Tile, reason: Reason) -> Optional[Row]:
    """The row at fault; None where the fault is of no one feature, or the bytes are no tile."""
    if not isinstance(reason, Fault) or reason.feature is None or reason.layer is None or reason.code in _WIRE_FAULTS:
        return None
    return _rows(tile, [(reason.layer, reason.feature)])[0]


def changes_of(tile: Tile, mended: Mended) -> List[RowChange]:
    """What was changed in a tile as the database made it."""
    rows = _rows(tile, [(it.layer, it.feature) for it in mended.changed])
    return [RowChange(row, change) for row, change in zip(rows, mended.changed)]


def logged(reason: Reason, row: Optional[Row]) -> str:
    """A reason as a line of the log has it: the row at fault, the fault in words, and then its own text."""
    if not isinstance(reason, Fault):
        return reason.sentence
    return f"{row}: {reason} {reason.text}" if row else f"{reason} {reason.text}"
