"""Where a point of a tile is on the earth: longitude and latitude in degrees, by the projection of web maps (EPSG:3857)."""
from __future__ import annotations

import math
from fractions import Fraction
from typing import List, Tuple, Union

Number = Union[int, Fraction]

# digits after the point, of which the last is a tenth of a millimetre
_DIGITS = 9


def lon_lat(zoom: int, column: int, row: int, x: Number, y: Number, extent: int) -> Tuple[float, float]:
    """That of a point of a tile, whose coordinates go to the tile's extent, and beyond it in its buffer.

    A longitude beyond the 180th degree is that from the other side (RFC 7946 section 3.1.9), and a latitude is at most 90.
    """
    # (whole numbers, of which one division makes the float that is nearest: fractions of Python's take ten times as long, and this is
    # asked for each fault of a planet)
    across, width = column * extent * x.denominator + x.numerator, extent * x.denominator << zoom
    down, height = row * extent * y.denominator + y.numerator, extent * y.denominator << zoom
    # (on the 180th degree both signs are right, and a tile's east side stays in the east)
    turned = across if 0 <= across <= width else across % width
    longitude = round((360 * turned - 180 * width) / width, _DIGITS)
    return longitude, round(_latitude((height - 2 * down) / height), _DIGITS)


def _latitude(above: float) -> float:
    """That of a height above the equator, where the map has 2 from one pole to the other."""
    # (beyond the fifth power of e to the tenth there is nothing but the poles)
    height = max(-50.0, min(50.0, math.pi * above))
    return math.degrees(math.atan(math.sinh(height)))


def bounds(zoom: int, column: int, row: int, box: Tuple[int, int, int, int], extent: int) -> List[float]:
    """West, south, east and north of a part of a tile, given by its least and greatest coordinates.

    Across the 180th degree west is greater than east (RFC 7946 section 5.2), but for what goes all around the earth.
    """
    least_x, least_y, greatest_x, greatest_y = box
    west, north = lon_lat(zoom, column, row, least_x, least_y, extent)
    east, south = lon_lat(zoom, column, row, greatest_x, greatest_y, extent)
    # (as at zoom 0, with the buffer)
    if greatest_x - least_x >= extent << zoom:
        west, east = -180.0, 180.0
    return [west, south, east, north]


def box_of(zoom: int, column: int, row: int) -> List[float]:
    """West, south, east and north of a tile."""
    return bounds(zoom, column, row, (0, 0, 1, 1), 1)
