"""What was changed in a run: changes.jsonl, how many tiles and features, and the largest changes."""
from __future__ import annotations

import heapq
import json
import os
from dataclasses import dataclass
from types import TracebackType
from typing import Any, Dict, List, Optional, Tuple, Type

from ..names import Names
from ..geometry import Position, rings_of
from ..records import Finding, Judged, Partition, Place
from ..sources import Source
from ..store import Store
from ..unpack import NotUnpacked, unpacked
from ..whole_file import WholeFile
from .tiles import Mending, changes_in, sum_of

CHANGES = "changes.jsonl"
# of which the report has pictures
_LARGEST = 12

Rings = List[List[Position]]
_json_of = json.JSONEncoder(ensure_ascii=False).encode


@dataclass(frozen=True)
class Change:
    """A feature that was changed, with what its line says, and what became of its tile."""

    place: Place
    line: Dict[str, Any]
    mending: Mending

    @property
    def share(self) -> float:
        """By how much its area is another one, as a share of its tile's, where that has one."""
        before, after, extent = self.line.get("area_before", 0.0), self.line.get("area_after", 0.0), self.line["extent"]
        return float(abs(after - before) / extent**2) if extent else 0.0


@dataclass
class Totals:
    """Of tiles that were refused: those that were mended, and those that stay. Of features: those that were mended, or left out."""

    tiles: int = 0
    staying: int = 0
    mended: int = 0
    dropped: int = 0

    @property
    def words(self) -> str:
        """For the last line."""
        dropped = f", without {self.dropped} feature{'' if self.dropped == 1 else 's'}" if self.dropped else ""
        return f"{self.tiles} mended{dropped}, {self.staying} not mended"


class Changes:
    """Writes a line for each changed feature, in the order of the tiles."""

    def __init__(self, folder: str, store: Store) -> None:
        self.totals = Totals()
        self._store = store
        self._file = WholeFile(os.path.join(folder, CHANGES))
        self._largest: List[Tuple[float, int, Change]] = []
        self._count = 0

    def __enter__(self) -> Changes:
        self._file.__enter__()
        return self

    def __exit__(self, kind: Optional[Type[BaseException]], error: Optional[BaseException], trace: Optional[TracebackType]) -> None:
        self._file.__exit__(kind, error, trace)

    def add(self, partition: Partition, source: Source, judged: Judged) -> None:
        """Those of a partition that was judged."""
        for it in judged.findings:
            self._add(partition, source, it)

    def _add(self, partition: Partition, source: Source, it: Finding) -> None:
        if it.mending is None:
            return
        if not it.mending.is_mended:
            self.totals.staying += 1
            return
        self.totals.tiles += 1
        self.totals.mended += it.mending.mended
        self.totals.dropped += it.mending.dropped
        place = Place(partition.source, partition.zoom, it.column, it.row)
        where = {"source": source.path, "zoom": place.zoom, "column": place.column, "row": place.row, "tms_row": place.tms_row}
        for line in changes_in(self._store.read(it.mending.at + it.mending.size, it.mending.lines)):
            self._file.write(f"{_json_of({**where, **line})}\n")
            self._keep(Change(place, line, it.mending))

    def _keep(self, change: Change) -> None:
        """One of the largest, perhaps. (Of equal ones the first.)"""
        self._count += 1
        keep = heapq.heappush if len(self._largest) < _LARGEST else heapq.heappushpop
        keep(self._largest, (change.share, -self._count, change))

    @property
    def largest(self) -> List[Change]:
        """The largest first."""
        return [change for _, _, change in sorted(self._largest, key=lambda it: (-it[0], -it[1]))]

    def rings_of(self, change: Change, source: Source) -> Optional[Tuple[Rings, Rings]]:
        """What the feature draws before and after. None where the tile can't be read again."""
        place, layer = change.place, change.line
        before = next((it for it in source.at(place.zoom, place.column, place.row) if sum_of(it) == change.mending.before), None)
        if before is None:
            return None
        after = self._store.read(change.mending.at, change.mending.size)
        lines = changes_in(self._store.read(change.mending.at + change.mending.size, change.mending.lines))
        dropped = sum(it["what"] == "dropped" and it["layer_number"] == layer["layer_number"] and it["feature"] < layer["feature"] for it in lines)
        first = _rings(before, layer["layer_number"], layer["feature"])
        second = _rings(after, layer["layer_number"], layer["feature"] - dropped) if layer["what"] == "mended" else []
        return first, second


def _rings(stored: bytes, layer: int, feature: int) -> Rings:
    try:
        found = Names(unpacked(stored)).subject(layer, feature).feature
    except NotUnpacked:
        return []
    return [] if found is None else rings_of(found)
