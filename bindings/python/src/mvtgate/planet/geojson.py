"""Faults as GeoJSON (RFC 7946): each is a point on the earth, or the box of its tile where it has no point."""
from __future__ import annotations

import json
from fractions import Fraction
from typing import Any, Dict, List, Mapping, NamedTuple, Optional, Union

from .mercator import box_of, lon_lat
from .names import Subject

HEAD, BETWEEN, TAIL = '{"type": "FeatureCollection", "features": [\n', ",\n", "\n]}\n"

# more isn't kept by readers that take numbers as doubles
_LAST_EXACT = 2**53 - 1
_json_of = json.JSONEncoder(ensure_ascii=False).encode


class Address(NamedTuple):
    """Where a tile is, with its row from the north."""

    zoom: int
    column: int
    row: int

    @property
    def text(self) -> str:
        """z/x/y."""
        return f"{self.zoom}/{self.column}/{self.row}"


def point_of(fault: Mapping[str, Any], address: Address, subject: Subject) -> Optional[List[float]]:
    """Longitude and latitude of the point at which a fault is. None where it has none, or its layer's extent is 0: then it is nowhere."""
    if subject.extent == 0 or not all(key in fault for key in ("x", "y", "w")):
        return None
    x, y, w = (int(fault[key]) for key in ("x", "y", "w"))
    return list(lon_lat(*address, Fraction(x, w), Fraction(y, w), subject.extent))


def exact(number: Optional[int]) -> Union[int, str, None]:
    """A number, or its text where readers that take it as a double would have another one."""
    return str(number) if number is not None and number > _LAST_EXACT else number


def _geometry(address: Address, point: Optional[List[float]]) -> Dict[str, Any]:
    if point is not None:
        return {"type": "Point", "coordinates": point}
    west, south, east, north = box_of(*address)
    ring = [[west, south], [east, south], [east, north], [west, north], [west, south]]
    return {"type": "Polygon", "coordinates": [ring]}


def feature_text(address: Address, point: Optional[List[float]], properties: Dict[str, Any]) -> str:
    """A fault as a feature, on one line. Its tile's place is among the properties."""
    where = {"tile": address.text, "zoom": address.zoom, "column": address.column, "row": address.row}
    about: Dict[str, Any] = {**where, **properties, "feature_id": exact(properties["feature_id"])}
    return _json_of({"type": "Feature", "geometry": _geometry(address, point), "properties": about})
