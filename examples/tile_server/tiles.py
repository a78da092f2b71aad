"""Tiles as PostGIS makes them: which there are, their layers, and the query."""
from __future__ import annotations

from dataclasses import dataclass
from typing import Dict, Optional, Tuple

from .database import Database


@dataclass(frozen=True)
class Address:
    """Where a tile is."""

    zoom: int
    column: int
    row: int

    def __str__(self) -> str:
        return f"{self.zoom}/{self.column}/{self.row}"

    def exists(self, max_zoom: int) -> bool:
        """Whether there is such a tile."""
        return self.zoom <= max_zoom and max(self.column, self.row) < 2**self.zoom


# the units along a side of a tile
EXTENT = 4096


@dataclass(frozen=True)
class Layer:
    """A layer, whose table has its name: the columns that become tags, and the tags with the type of their values."""

    columns: str
    fields: Dict[str, str]


# (of the column `properties`, which is JSON, each key becomes a tag)
LAYERS = {
    "areas": Layer(
        "name, properties", {"name": "String", "crop": "String", "hectares": "Number", "kind": "String", "depth": "Number"}
    ),
    "places": Layer("name", {"name": "String"}),
}

# (The order of the rows is given, so that the same rows make the same bytes. Rows whose geometry is NULL, since ST_AsMVTGeom found
# nothing of them in the tile, are left out by ST_AsMVT.)
_LAYER = """(
    SELECT ST_AsMVT(its, '{layer}', %(extent)s, 'geometry', 'id') FROM (
        SELECT id, {columns}, ST_AsMVTGeom(source.geometry, bounds.tile, %(extent)s, %(buffer)s, true) AS geometry
        FROM {layer} AS source, bounds WHERE source.geometry && bounds.with_margin ORDER BY id
    ) AS its
)"""
_TILE = """
WITH bounds AS (
    SELECT ST_TileEnvelope(%(zoom)s, %(column)s, %(row)s) AS tile,
           ST_TileEnvelope(%(zoom)s, %(column)s, %(row)s, margin => %(margin)s) AS with_margin
)
SELECT {layers}"""
# what is drawn beyond each side of a tile, as a part of the side
_MARGIN = 1 / 64


# the query answers each layer by itself, which has no bytes where it has no features
_QUERY = _TILE.format(layers=", ".join(_LAYER.format(layer=name, columns=it.columns) for name, it in LAYERS.items()))


def parameters_of(address: Address) -> Dict[str, float]:
    """What the query's places are filled with."""
    whole = {"zoom": address.zoom, "column": address.column, "row": address.row, "extent": EXTENT}
    return {**whole, "buffer": round(_MARGIN * EXTENT), "margin": _MARGIN}


@dataclass(frozen=True)
class Tile:
    """A tile's bytes, of which there are none where it has no features, and the names of its layers in their order."""

    content: bytes
    layers: Tuple[str, ...]

    def layer(self, number: Optional[int]) -> Optional[str]:
        """The name of a layer by its number in the tile; None where there is no such layer."""
        return self.layers[number] if number is not None and number < len(self.layers) else None


class Tiles:
    """Asks the database for tiles."""

    def __init__(self, database: Database) -> None:
        self._database = database

    def fetch(self, address: Address) -> Tile:
        """The tile at this place."""
        row = self._database.row(_QUERY, parameters_of(address))
        return Tile(b"".join(row), tuple(name for name, layer in zip(LAYERS, row) if len(layer)))
