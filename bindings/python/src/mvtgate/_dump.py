"""The types of what `dump` returns: dicts and lists, as the JSON text of `mvtgate dump` has them."""
from __future__ import annotations

from typing import Dict, List, Optional, TypedDict, Union

# One of bool (a bool), double and float (the 8 or 4 bytes in hexadecimal), int, sint and uint (a number), string, with its value.
Value = Dict[str, Union[bool, int, str]]


class Feature(TypedDict):
    """A feature of a layer. `type` is 0 UNKNOWN, 1 POINT, 2 LINESTRING or 3 POLYGON."""

    geometry: List[int]
    id: Optional[int]
    tags: List[int]
    type: int


class Layer(TypedDict):
    """A layer of a tile."""

    extent: int
    features: List[Feature]
    keys: List[str]
    name: str
    values: List[Value]
    version: int


class Tile(TypedDict):
    """What a tile holds."""

    layers: List[Layer]
