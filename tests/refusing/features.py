"""Features that are mended, the work on which comes to each place where mending asks for memory."""
import json
from typing import NamedTuple

import wire
from call import Call, mended
from shapes import box, doubled_area


class Mending(NamedTuple):
    """A feature that is mended: by which profile, its rings, those in their place, and what was done."""

    name: str
    profile: str
    rings: list
    after: list
    crossings: int = 0
    cuts: int = 0

    def what(self):
        before, after = map(measures, (self.rings, self.after))
        return f"Mended(MendedFeature {{ before: {before}, after: {after}, crossings: {self.crossings}, cuts: {self.cuts} }})"

    def call(self):
        words = {"polygon": "mend_with", "feature": "mend_with_drop"}[self.profile]
        return Call(words, layer_of([self.rings]), mended(layer_of([self.after]), self.what()), name=self.name)


def layer_of(features):
    """A tile of one layer, with features of polygons of these rings. In place of none there is a MoveTo with a count of 0."""
    numbers = [wire.numbers_of(rings) if rings else [1, 50, 34] for rings in features]
    geometries = [wire.field(4, b"".join(map(wire.varint, it))) for it in numbers]
    return wire.field(3, b"\x78\x02\x0a\x03abc" + b"".join(wire.field(2, b"\x18\x03" + it) for it in geometries))


def measures(rings):
    areas = [doubled_area(it) for it in rings]
    polygons = sum(it > 0 for it in areas)
    return f"Measures {{ doubled_area: {sum(areas)}, polygons: {polygons}, vertices: {sum(map(len, rings))} }}"


def mendings():
    """Features, the work on which comes to each place where mending asks for memory, but for those that always have room already.
    The rings that are to come out follow from docs/MEND.md; a ring that stood in the feature begins where it began, and each other
    one at its least position by x and then y."""
    # the least and the greatest coordinate that lie no further apart than a step may lead
    least, greatest = 1 - (1 << 30), 1 << 30
    others = [box(x, 0, 5, 5) for x in (30, 40, 50)]
    row = [box(5 * at, 0, 4, 4) for at in range(8)]
    teeth = [(520 - at, 1 + at % 2) for at in range(521)]
    bow = [(0, 8), (10, 0), (10, 10), (0, 0)]
    lobes = [(0, 0), (4, 4), (10, 0), (10, 10), (5, 5), (3, 5), (0, 8)]
    shared = (
        [(0, 0), (10, 0), (10, 5), (10, 10), (5, 10), (0, 10)],
        [(5, 5), (10, 5), (15, 5), (15, 15), (5, 15), (5, 10)],
    )
    whole = box(least, least, greatest - least, greatest - least)

    def in_corner(*steps):
        return [(least + x, least + y) for x, y in steps]

    return [
        # edges 0 and 2 cross at (40/9, 40/9): two triangles
        Mending("a bow", "polygon", [bow], [[(0, 0), (4, 4), (0, 8)], [(4, 4), (10, 0), (10, 10)]], 1),
        Mending(
            "a bow of no area",
            "polygon",
            [[(0, 0), (4, 4), (4, 0), (0, 4)]],
            [[(0, 0), (2, 2), (0, 4)], [(2, 2), (4, 0), (4, 4)]],
            1,
        ),
        # edges 0 and 2 cross near (0.26, 0.03)
        Mending(
            "a crossing that is rounded to an end",
            "polygon",
            [[(0, 0), (10, 1), (1, 3), (0, -1)]],
            [[(0, 0), (10, 1), (1, 3)]],
            1,
        ),
        # by 'feature' the triangles are joined: of the two corners between them the one above is the narrower
        Mending("a bow beside a square", "feature", [bow, box(20, 0, 4, 4)], [lobes, box(20, 0, 4, 4)], 1, 1),
        Mending(
            "squares that overlap",
            "feature",
            [box(0, 0, 10, 10), box(5, 5, 10, 10)],
            [[(0, 0), (10, 0), (10, 5), (15, 5), (15, 15), (5, 15), (5, 10), (0, 10)]],
            2,
        ),
        Mending(
            "bars that cross",
            "feature",
            [box(0, 10, 30, 10), box(10, 0, 10, 30)],
            [[(0, 10), (10, 10), (10, 0), (20, 0), (20, 10), (30, 10), (30, 20), (20, 20), (20, 30), (10, 30), (10, 20), (0, 20)]],
            4,
        ),
        # the hole is the last square's by its place, and lies in none
        Mending("a hole in no exterior", "polygon", [*row, [(0, 10), (0, 14), (4, 14), (4, 10)]], [*row, box(0, 10, 4, 4)]),
        Mending(
            "a hole in the other exterior",
            "feature",
            [box(0, 0, 10, 10), [(25, 5), (25, 10), (30, 10), (30, 5)], box(20, 0, 20, 20)],
            [box(0, 0, 10, 10), box(20, 0, 20, 20), [(25, 5), (25, 10), (30, 10), (30, 5)]],
        ),
        # four exteriors and a lake, all wound the other way round, and a ring of no area
        Mending(
            "all backwards",
            "polygon",
            [turned(box(0, 0, 20, 20)), box(5, 5, 5, 5), *map(turned, others), [(0, 30), (4, 30), (2, 30)]],
            [box(0, 0, 20, 20), turned(box(5, 5, 5, 5)), *others],
        ),
        # (no sweep says which of these is in the other one)
        Mending(
            "backwards and crossing",
            "polygon",
            [turned(box(0, 0, 10, 10)), turned(box(5, 5, 10, 10))],
            [box(0, 0, 10, 10), box(5, 5, 10, 10)],
        ),
        Mending("backwards over the whole grid", "polygon", [turned(whole)], [whole]),
        Mending(
            "a lake in a corner of the whole grid",
            "polygon",
            [whole, in_corner((0, 0), (6, 12), (12, 6))],
            [whole, in_corner((1, 1), (1, 2), (6, 12), (12, 6), (2, 1))],
            cuts=1,
        ),
        # two squares that meet in vertices, and two that don't
        Mending(
            "backwards and sharing vertices",
            "polygon",
            [*map(turned, (*shared, box(-20, 0, 5, 5), box(-10, 0, 5, 5)))],
            [*shared, box(-20, 0, 5, 5), box(-10, 0, 5, 5)],
        ),
        Mending(
            "a spike beside many teeth",
            "polygon",
            [[(0, 0), (520, 0), (530, 0), (520, 0), *teeth]],
            [[(0, 0), (520, 0), *teeth]],
        ),
        Mending(
            "a lake that touches a corner",
            "polygon",
            [box(0, 0, 20, 20), [(0, 0), (6, 12), (12, 6)]],
            [box(0, 0, 20, 20), [(1, 1), (1, 2), (6, 12), (12, 6), (2, 1)]],
            cuts=1,
        ),
        Mending(
            "a lake that touches the right shore",
            "polygon",
            [box(0, 0, 20, 20), [(20, 6), (10, 18), (14, 18)]],
            [[(0, 0), (20, 0), (20, 6), (20, 20), (0, 20)], [(10, 18), (14, 18), (19, 8), (15, 12)]],
            cuts=1,
        ),
        # between steps (3,1) and (18,13) the hull of the grid's positions has the corners (2,1), (3,2) and (7,5)
        Mending(
            "a cut of five corners",
            "polygon",
            [box(0, 0, 40, 20), [(10, 0), (28, 13), (25, 5)]],
            [[(0, 0), (10, 0), (40, 0), (40, 20), (0, 20)], [(12, 1), (13, 2), (17, 5), (28, 13), (25, 5), (13, 1)]],
            cuts=1,
        ),
        *(lake_with_islands(count) for count in (1, 2, 3)),
        upright_lake_with_islands(),
    ]


def turned(ring):
    """The ring the other way round, from the same position on."""
    return ring[:1] + ring[:0:-1]


def lake_with_islands(count):
    """A lake that touches the shore, and so many islands in it. The cut of its corner comes to the lowest position of each of them,
    which then gives way to the one above it."""
    places = (20, 18, 22)[:count]
    return Mending(
        f"a lake with islands: {count}",
        "feature",
        [box(0, 0, 40, 10), [(20, 0), (8, 4), (32, 4)], *([(x, 1), (x + 1, 3), (x, 3)] for x in places)],
        [
            [(0, 0), (20, 0), (40, 0), (40, 10), (0, 10)],
            [(8, 4), (32, 4), (23, 1), *((x, 1) for x in sorted(places, reverse=True)), (17, 1)],
            *([(x, 2), (x + 1, 3), (x, 3)] for x in sorted(places)),
        ],
        cuts=1 + count,
    )


def upright_lake_with_islands():
    """The same of a lake that touches the shore on its left."""
    return Mending(
        "an upright lake with islands",
        "feature",
        [box(0, 0, 10, 40), [(0, 20), (4, 32), (4, 8)], *([(1, y), (3, y), (3, y + 1)] for y in (18, 20, 22))],
        [
            [(0, 0), (10, 0), (10, 40), (0, 40), (0, 20)],
            [(1, 17), (1, 18), (1, 20), (1, 22), (1, 23), (4, 32), (4, 8)],
            *([(2, y), (3, y), (3, y + 1)] for y in (18, 20, 22)),
        ],
        cuts=4,
    )


def report_on(dropped, size):
    """`report_text` on so many features that draw no ring, and two squares that are wound backwards. (A text asks for memory where
    its length passes certain numbers.)"""
    area = str(2 * size * size)
    turning = {"area": ["-" + area, area], "crossings": 0, "cuts": 0}
    measured = {"layer": 0, "polygons": [0, 1], "vertices": [4, 4], "what": "mended"}
    changed = [{"feature": at, "layer": 0, "what": "dropped"} for at in range(dropped)]
    changed += [{**turning, "feature": dropped + at, **measured} for at in range(2)]
    text = json.dumps({"changed": changed, "ok": True}, separators=(",", ":"))
    square = [turned(box(0, 0, size, size))]
    return Call("report_text", layer_of([[]] * dropped + [square] * 2), text, name=f"{dropped} dropped, two of {area} mended")


def mending_beside_others():
    """A tile with other layers, features and fields than those of the one feature that is mended."""
    square = box(0, 0, 10, 10)
    it = Mending("a feature among others", "polygon", [turned(square)], [square])
    before, after = (wire.tile_of([[square], rings]) for rings in (it.rings, it.after))
    return Call("mend_with", before, mended(after, it.what(), 1, 1), name=it.name)
