"""The faults that the report lists, all of them where there aren't too many, for its script to look through."""
from __future__ import annotations

import array
import base64
import gzip
import json
from typing import TYPE_CHECKING, Any, Dict, List, Optional, Union

from ..._words import fill, words_of_fault
from ..further import OneFault
from ..geojson import exact
from ..records import Place
from .limits import FAULTS
from .texts import cut

if TYPE_CHECKING:
    from .report import Report


class Listing:
    """A column for each thing that is known of a fault. Beyond FAULTS they are only counted."""

    def __init__(self) -> None:
        self.left_out = 0
        self._numbers = {name: array.array("q") for name in ("source", "zoom", "column", "row", "code", "layer")}
        self._ids: List[Union[int, str, None]] = []
        self._points: List[Optional[List[float]]] = []
        self._sentences: List[str] = []
        self._layers: Dict[str, int] = {}

    @property
    def count(self) -> int:
        """How many are listed."""
        return len(self._ids)

    def add(self, place: Place, it: OneFault) -> None:
        """A fault, in the order of the tiles."""
        if self.count >= FAULTS:
            self.left_out += 1
            return
        code = it.fault["code"]
        layer = -1 if it.layer is None else self._layers.setdefault(cut(it.layer), len(self._layers))
        for name, number in zip(self._numbers, (place.source, place.zoom, place.column, place.row, code, layer)):
            self._numbers[name].append(number)
        self._ids.append(exact(it.feature_id))
        self._points.append(it.point)
        self._sentences.append(fill(words_of_fault(code)["sentence"], it.fault))

    def packed(self) -> str:
        """All of it as JSON, packed by gzip, in base64."""
        table = {
            "total": self.count + self.left_out,
            "layers": list(self._layers),
            **{name: numbers.tolist() for name, numbers in self._numbers.items()},
            "id": self._ids,
            "point": self._points,
            "sentence": self._sentences,
        }
        text = json.dumps(table, separators=(",", ":"))
        return base64.b64encode(gzip.compress(text.encode(), 6, mtime=0)).decode()


def listing_of(report: Report) -> Optional[Dict[str, Any]]:
    """What the template says of it. None where there is no fault."""
    return {"count": report.listing.count, "left_out": report.listing.left_out} if report.listing.count else None


def data_of(report: Report, paths: List[str], names: List[str]) -> Dict[str, Any]:
    """What the script reads."""
    return {"table": report.listing.packed(), "sources": paths, "names": names} if report.listing.count else {}
