"""The report of a run as GeoJSON, which maps show: a point for each fault of a tile whose place is known, or its tile's box."""
from __future__ import annotations

import re
from typing import Iterable, Iterator, List, Optional

from .._faults import Fault
from .._files import ENDINGS
from ..planet.geojson import BETWEEN, HEAD, TAIL, Address, feature_text, point_of
from ..planet.names import Names
from .answers import About, Answer
from .counts import Counts
from .names import as_text
from .report import Report

_NUMBER = r"(0|[1-9][0-9]{0,9})"
_PATH = re.compile(rf"(?:^|/){_NUMBER}/{_NUMBER}/{_NUMBER}(?:{'|'.join(map(re.escape, ENDINGS))})?\Z", re.ASCII)
_LAST_ZOOM = 30


def address_of(file: str, place: Optional[str]) -> Optional[Address]:
    """Where a tile is, by its place in an archive or by the name of its file, where that ends with z/x/y.mvt or the like."""
    found = _PATH.search(file if place is None else place)
    if found is None:
        return None
    zoom, column, row = map(int, found.groups())
    # (in an archive rows and columns may be any)
    is_one = zoom <= _LAST_ZOOM and (place is not None or max(column, row) < 1 << zoom)
    return Address(zoom, column, row) if is_one else None


def abouts_of(tile: bytes, faults: Iterable[Fault], address: Address) -> Iterator[About]:
    """What each fault of a tile is about, and where it is."""
    names = Names(tile)
    for fault in faults:
        it = names.subject_of(fault)
        yield About(address, it.layer, it.feature_id, point_of(fault.members, address, it))


class GeoJson(Report):
    """Faults of tiles without a place aren't in it; `nameless` says how many there are."""

    def __init__(self, path: str, counts: Counts) -> None:
        super().__init__(path, counts)
        self.nameless = 0
        self._between = ""

    def head(self) -> str:
        return HEAD

    def entry(self, answer: Answer) -> str:
        if answer.fault is None:
            return ""
        if answer.about is None:
            self.nameless += 1
            return ""
        about = answer.about
        properties = {
            "layer": about.layer,
            "feature_id": about.feature_id,
            "code": answer.fault.code,
            "sentence": answer.sentence,
            "source": as_text(answer.file),
        }
        between, self._between = self._between, BETWEEN
        return between + feature_text(about.address, about.point, properties)

    def tail(self) -> str:
        return TAIL

    def words(self) -> List[str]:
        if not self.nameless:
            return []
        return [f"{self.nameless} fault{'' if self.nameless == 1 else 's'} of tiles whose names have no z/x/y, which aren't in {as_text(self._path)}"]
