"""Runs for tests of the report: sources in memory, and what workers would have found in them.

The faults are those of tiles/expected, so nothing here comes from the report.
"""
from __future__ import annotations

import json
import pathlib
from collections import Counter
from dataclasses import dataclass, field
from typing import Any, Dict, Iterator, List, Mapping, Optional, Tuple

from mvtgate.planet.journal import FORMAT
from mvtgate.planet.records import Extent, Finding, Judged, Partition, Timed

TOP = pathlib.Path(__file__).resolve().parents[5]
TILES = TOP / "tiles"
ROW_LENGTH = 4000  # tiles of a partition


def fault_of(name: str, profile: str = "polygon") -> Optional[Dict[str, Any]]:
    """The first fault that is accepted for a sample tile, or None where it is valid."""
    of_profile = TILES / f"expected/{name}.check_{profile}"
    lines = of_profile if of_profile.exists() else TILES / f"expected/{name}.check"
    members: Dict[str, Any] = json.loads(lines.read_text().splitlines()[0])
    return members if "code" in members else None


@dataclass(frozen=True)
class Sample:
    """A tile at a place, with what is found in it."""

    data: bytes
    fault: Optional[Dict[str, Any]] = None
    layer: Optional[str] = None
    feature_id: Optional[int] = None
    error: Optional[str] = None
    confirmed: Optional[bool] = True
    seconds: float = 0.0004

    @classmethod
    def of(cls, name: str, profile: str = "polygon", **more: Any) -> Sample:
        """A sample tile of the repository."""
        return cls((TILES / f"{name}.mvt").read_bytes(), fault_of(name, profile), **more)


@dataclass
class MemorySource:
    """A source whose tiles are in memory, by zoom, column and row from the north."""

    path: str
    tiles: Dict[Tuple[int, int, int], Sample]
    kind: str = "mbtiles"
    lost: List[Tuple[int, int, int]] = field(default_factory=list)

    def tile(self, zoom: int, column: int, row: int) -> Optional[bytes]:
        found = self.tiles.get((zoom, column, row))
        return None if found is None or (zoom, column, row) in self.lost else found.data

    def extents(self) -> Dict[int, Extent]:
        by_zoom: Dict[int, List[Tuple[int, int]]] = {}
        for zoom, column, row in self.tiles:
            by_zoom.setdefault(zoom, []).append((column, row))
        return {zoom: _extent(zoom, places) for zoom, places in sorted(by_zoom.items())}

    def judged(self, number: int = 0) -> Iterator[Judged]:
        """What workers find, a record for each part of a zoom, in the order of the tiles."""
        for zoom, extent in self.extents().items():
            places = sorted((column, row) for at, column, row in self.tiles if at == zoom)
            for at in range(0, len(places), ROW_LENGTH):
                part = places[at : at + ROW_LENGTH]
                found = {place: self.tiles[(zoom, *place)] for place in part}
                yield _judged(Partition(number, zoom, part[0], part[-1], len(part)), extent, found)


def _extent(zoom: int, places: List[Tuple[int, int]]) -> Extent:
    columns, rows = [it[0] for it in places], [it[1] for it in places]
    return Extent(zoom, len(places), min(columns), max(columns), min(rows), max(rows))


def _judged(partition: Partition, extent: Extent, tiles: Mapping[Tuple[int, int], Sample]) -> Judged:
    size = sum(len(it.data) for it in tiles.values())
    judged = Judged(partition, "a worker", packed=size, unpacked=size, seconds=sum(it.seconds for it in tiles.values()))
    judged.cells = [(*cell, count) for cell, count in sorted(Counter(extent.cell(*place) for place in tiles).items())]
    for (column, row), it in tiles.items():
        if it.error is not None:
            judged.findings.append(Finding(column, row, len(it.data), error=it.error))
        elif it.fault is not None:
            found = Finding(column, row, len(it.data), it.seconds, None, it.fault, it.layer, it.feature_id, it.confirmed)
            judged.findings.append(found)
    slowest = sorted(tiles.items(), key=lambda it: -it[1].seconds)[:10]
    judged.slowest = [Timed(it.seconds, *place, len(it.data)) for place, it in slowest]
    return judged


def run_of(*sources: MemorySource, profile: str = "polygon", advice: bool = False) -> Dict[str, Any]:
    """What the journal's first line has of a run over these sources."""
    return {
        "format": FORMAT,
        "version": "12.34.56",
        "profile": profile,
        "advice": advice,
        "began": "2026-03-01T12:00:00+00:00",
        "sources": [
            {
                "path": it.path,
                "kind": it.kind,
                "tiles": len(it.tiles),
                "stamp": {},
                "zooms": [vars(extent) for extent in it.extents().values()],
            }
            for it in sources
        ],
    }
