"""Tiles of as many faults as fit in a size, for tests/hostile, and the lines that `check --all` writes of each.

A tile is one part again and again, so its lines are that of the part's fault with the part's number.
"""
from typing import NamedTuple

from inputs import DELIMITED, NAMED, POINT, POLYGON, UNKNOWN, VARINT, feature, field, one_payload, packed, repeated, ring

# the lines that are joined at a time
BLOCK = 4096


class Many(NamedTuple):
    """Copies of a part with a fault, from the first that has it."""

    part: bytes
    # with %d for the part's number
    line: bytes
    first: int = 0
    is_layer: bool = False

    def tile(self, size):
        return repeated(self.part, size) if self.is_layer else one_payload(NAMED, self.part, size)

    def lines(self, size):
        """All lines of the tile of a size, by blocks."""
        tile = self.tile(size)
        count = (len(tile) - tile.index(self.part)) // len(self.part)
        for at in range(self.first, count, BLOCK):
            yield b"".join(self.line % it for it in range(at, min(at + BLOCK, count)))


def faulty_feature(kind, geometry, **rest):
    return field(2, DELIMITED, feature(kind, geometry, **rest))


def nameless_layer(version):
    return field(3, DELIMITED, field(15, VARINT, version) + field(1, DELIMITED, b""))


# a ring through (0, 8), (10, 0), (10, 10) and (0, 0), of which the first edge and the third cross
CROSSED = packed(ring((0, 8), (10, -8), (0, 10), (-10, -10)))
CROSSING = b'{"code":504,"feature":%d,"first":{"edge":0,"ring":0},"layer":0,"polygon":0,"second":{"edge":2,"ring":0},"w":"180","x":"800","y":"800"}\n'
# a triangle, and another one in it
INNER = packed([*ring((0, 0), (9, 0), (-9, 9)), *ring((1, -8), (1, 0), (-1, 1))])

MANY = {
    # the smallest features with a fault: points without a command
    "empty_points": Many(faulty_feature(POINT, b""), b'{"code":403,"feature":%d,"index":0,"layer":0}\n'),
    "odd_tags": Many(faulty_feature(UNKNOWN, b"", tags=packed([0])), b'{"code":301,"feature":%d,"index":1,"layer":0}\n'),
    "crossed_rings": Many(faulty_feature(POLYGON, CROSSED), CROSSING),
    "inner_polygons": Many(faulty_feature(POLYGON, INNER), b'{"code":507,"feature":%d,"layer":0,"other":0,"polygon":1,"vertex":0}\n'),
    # of two faults of a layer that of its version is the lesser one
    "other_versions": Many(nameless_layer(1), b'{"code":201,"layer":%d}\n', is_layer=True),
    "nameless_layers": Many(nameless_layer(2), b'{"code":202,"first":0,"second":%d}\n', first=1, is_layer=True),
}
SIZED = {name: it.tile for name, it in MANY.items()}
