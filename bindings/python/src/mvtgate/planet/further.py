"""The faults of a tile after its first one, where all are asked for: packed, since a tile, and a partition, may have very many."""
from __future__ import annotations

import base64
import collections
import gzip
import io
import json
from dataclasses import dataclass
from typing import Any, Counter, Dict, Iterator, List, Mapping, NamedTuple, Optional, Tuple

from .._faults import fault_of_library
from .geojson import Address, point_of
from .names import Names

_json_of = json.JSONEncoder(separators=(",", ":")).encode


class OneFault(NamedTuple):
    """A fault, and the name of its layer, the id of its feature, and longitude and latitude of its point, where it has them."""

    fault: Dict[str, Any]
    layer: Optional[str]
    feature_id: Optional[int]
    point: Optional[List[float]] = None


@dataclass(frozen=True)
class Further:
    """How many there are of each code and layer, and all of them in their order, a line of JSON for each, packed by gzip."""

    counts: List[Tuple[int, Optional[str], int]]
    packed: str

    @classmethod
    def of_lines(cls, tile: bytes, lines: Iterator[str], address: Optional[Address] = None) -> Optional[Further]:
        """Those that the library has told of a tile, in its order. None where there are none."""
        names = Names(tile)
        counts: Counter[Tuple[int, Optional[str]]] = collections.Counter()
        content = io.BytesIO()
        with gzip.GzipFile(fileobj=content, mode="wb", mtime=0) as file:
            for line in lines:
                fault = fault_of_library(line)
                subject = names.subject_of(fault)
                counts[fault.code, subject.layer] += 1
                point = None if address is None else point_of(fault.members, address, subject)
                told: List[Any] = [fault.members, subject.layer, subject.feature_id]
                file.write(_json_of(told if point is None else [*told, point]).encode() + b"\n")
        if not counts:
            return None
        return cls([(*it, count) for it, count in counts.items()], base64.b64encode(content.getvalue()).decode())

    @classmethod
    def of(cls, members: Mapping[str, Any]) -> Further:
        """Those of a line of the journal."""
        return cls([(code, layer, count) for code, layer, count in members["counts"]], members["packed"])

    @property
    def count(self) -> int:
        return sum(count for _, _, count in self.counts)

    def each(self) -> Iterator[OneFault]:
        """All of them, one at a time."""
        with gzip.GzipFile(fileobj=io.BytesIO(base64.b64decode(self.packed))) as file:
            for line in file:
                yield OneFault(*json.loads(line))
