"""Features of rings, most of which break a rule, as writers of tiles make them and as nobody does. Each kind is a function of a source
of random numbers that returns a list of rings, each a list of positions. An exterior's doubled area is positive."""
from __future__ import annotations

import math
import random
from typing import Callable, Dict, List, Tuple

Position = Tuple[int, int]
Ring = List[Position]
Rings = List[Ring]


def doubled_area(ring: Ring) -> int:
    return sum(a[0] * b[1] - b[0] * a[1] for a, b in zip(ring, ring[1:] + ring[:1]))


def without_repeats(ring: Ring) -> Ring:
    """The ring without positions that repeat the one before."""
    kept = [it for at, it in enumerate(ring) if at == 0 or it != ring[at - 1]]
    while len(kept) > 1 and kept[0] == kept[-1]:
        kept.pop()
    return kept


def wound(ring: Ring, is_exterior: bool) -> Ring:
    return ring if (doubled_area(ring) > 0) == is_exterior else ring[::-1]


def box(x: int, y: int, width: int, height: int, is_exterior: bool = True) -> Ring:
    return wound([(x, y), (x + width, y), (x + width, y + height), (x, y + height)], is_exterior)


def outline(source: random.Random, count: int, across: float, roughness: float, center: Tuple[float, float] = (0, 0)) -> Ring:
    """A coast: a circle whose radius wanders by halves, rounded to the grid."""
    radii = [1.0, 1.0]
    step = roughness
    while len(radii) < count:
        pairs = zip(radii, radii[1:] + radii[:1])
        radii = [it for a, b in pairs for it in (a, max(0.05, (a + b) / 2 + source.uniform(-step, step)))]
        step *= 0.6
    turns = [2 * math.pi * at / len(radii) for at in range(len(radii))]
    return [
        (round(center[0] + across / 2 * radius * math.cos(turn)), round(center[1] + across / 2 * radius * math.sin(turn)))
        for radius, turn in zip(radii, turns)
    ]


def coast(across: float, count: int) -> Callable[[random.Random], Rings]:
    def of(source: random.Random) -> Rings:
        return [wound(without_repeats(outline(source, count, across, 0.5)), True)]

    return of


def island_with_lakes(across: float) -> Callable[[random.Random], Rings]:
    def of(source: random.Random) -> Rings:
        rings = [wound(without_repeats(outline(source, 64, across, 0.3)), True)]
        for _ in range(source.randint(1, 4)):
            place = (source.uniform(-across / 4, across / 4), source.uniform(-across / 4, across / 4))
            lake = without_repeats(outline(source, 16, across / 6, 0.4, place))
            if len(lake) > 2 and doubled_area(lake):
                rings.append(wound(lake, False))
        return rings

    return of


def archipelago(source: random.Random) -> Rings:
    rings = []
    for _ in range(12):
        place = (source.uniform(-60, 60), source.uniform(-60, 60))
        island = without_repeats(outline(source, 16, source.uniform(3, 20), 0.4, place))
        if len(island) > 2 and doubled_area(island):
            rings.append(wound(island, True))
    return rings


def over_itself(source: random.Random) -> Rings:
    """Two loops of one ring that cross."""
    count, ring = source.choice((24, 48)), []
    for at in range(count):
        turn = 4 * math.pi * at / count
        radius = 80 + 40 * math.sin(turn / 2 + source.uniform(-0.1, 0.1))
        ring.append((round(radius * math.cos(turn)), round(radius * math.sin(turn))))
    return [wound(without_repeats(ring), True)]


def overlapping(source: random.Random) -> Rings:
    """Two polygons over one another."""
    shift = (source.uniform(5, 40), source.uniform(5, 40))
    return [wound(without_repeats(outline(source, 32, 80, 0.3, place)), True) for place in ((0, 0), shift)]


def river(source: random.Random) -> Rings:
    """A strip that is thinner than a unit of the grid."""
    turn, place, middle = 0.0, (0.0, 0.0), []
    for _ in range(40):
        middle.append((place, turn))
        turn += source.uniform(-0.4, 0.4)
        place = (place[0] + 6 * math.cos(turn), place[1] + 6 * math.sin(turn))

    def bank(side: float) -> Ring:
        return [(round(x - side * math.sin(turn)), round(y + side * math.cos(turn))) for (x, y), turn in middle]

    return [wound(without_repeats(bank(-0.4) + bank(0.4)[::-1]), True)]


def star(source: random.Random) -> Rings:
    count = source.choice((5, 7, 9, 11))
    step, across = source.randint(2, count // 2), source.choice((30, 200, 1000))
    turns = [2 * math.pi * at * step / count for at in range(count)]
    return [wound(without_repeats([(round(across * math.cos(it)), round(across * math.sin(it))) for it in turns]), True)]


def zigzag(extent: int, count: int) -> Callable[[random.Random], Rings]:
    def of(source: random.Random) -> Rings:
        ring = without_repeats([(source.randrange(extent), source.randrange(extent)) for _ in range(count)])
        return [wound(ring, True)]

    return of


def comb(source: random.Random) -> Rings:
    """Teeth that are thinner than a unit where they end."""
    teeth, height = source.randint(4, 12), source.randint(20, 200)
    ring = [(0, 0), (3 * teeth, 0)]
    for at in range(teeth, 0, -1):
        tip = (3 * at - 1 + source.randint(-2, 2), height + source.randint(0, 9))
        ring += [(3 * at, 2), tip, (3 * at - 2, 2)]
    return [wound(without_repeats(ring), True)]


def in_a_small_square(source: random.Random) -> Rings:
    rings = []
    for _ in range(source.randint(1, 4)):
        ring = without_repeats([(source.randrange(8), source.randrange(8)) for _ in range(source.randint(3, 7))])
        if len(ring) > 2:
            rings.append(ring)
    return rings


def united_squares(size: int) -> Callable[[random.Random], Rings]:
    """The boundary of squares of a raster, as a program draws it that joins them: rings go through corners that two squares share."""

    def of(source: random.Random) -> Rings:
        count = 6
        filled = {(x, y) for x in range(count) for y in range(count) if source.random() < 0.55}
        sides: Dict[Position, List[Position]] = {}
        for x, y in filled:
            for beside, a, b in (
                ((x, y - 1), (x, y), (x + 1, y)),
                ((x + 1, y), (x + 1, y), (x + 1, y + 1)),
                ((x, y + 1), (x + 1, y + 1), (x, y + 1)),
                ((x - 1, y), (x, y + 1), (x, y)),
            ):
                if beside not in filled:
                    sides.setdefault(a, []).append(b)
        exteriors, holes = [], []
        while sides:
            start = min(sides)
            ring, at = [], start
            while True:
                ring.append(at)
                after = sides[at].pop()
                if not sides[at]:
                    del sides[at]
                at = after
                if at == start:
                    break
            scaled = [(x * size, y * size) for x, y in ring]
            (exteriors if doubled_area(scaled) > 0 else holes).append(scaled)
        # (which hole is whose isn't said: the feature is as such programs leave it where there is one exterior)
        return exteriors[:1] + holes + exteriors[1:] if exteriors else []

    return of


def squares_apart(source: random.Random) -> Rings:
    """Squares of a raster, each a polygon."""
    return [box(4 * x, 4 * y, 4, 4) for x in range(5) for y in range(5) if source.random() < 0.6]


def around_its_exterior(source: random.Random) -> Rings:
    inset = source.randint(0, 6)
    return [box(inset, inset, 20, 20), box(0, 0, 20 + 2 * inset, 20 + 2 * inset, False), box(100, 0, 10, 10)]


def hole_outside(source: random.Random) -> Rings:
    """A hole that belongs to another polygon, or to none."""
    rings = [box(0, 0, 50, 50), box(100, 0, 50, 50)]
    rings.insert(1, box(110, 10, 20, 20, False) if source.random() < 0.5 else box(source.randint(60, 80), 10, 10, 10, False))
    return rings


def holes_that_touch(source: random.Random) -> Rings:
    x, y = source.randint(5, 20), source.randint(5, 20)
    rings = [box(0, 0, 60, 60), box(x, y, 10, 10, False)]
    rings.append(box(x + source.choice((5, 10)), y + source.choice((0, 5, 10)), 10, 10, False))
    rings.append(box(0, 40, source.randint(5, 20), 10, False))
    return rings


def touching_the_shore(source: random.Random) -> Rings:
    """Lakes that come to the shore in one vertex, or in a point of a side."""
    at = source.randint(5, 55)
    lake = [(0, at), (source.randint(5, 25), at - 4), (source.randint(5, 25), at + 4)]
    corner = [(60, 60), (source.randint(40, 55), 57), (source.randint(40, 55), 44)]
    return [box(0, 0, 60, 60), wound(lake, False), wound(corner, False)]


def spikes(source: random.Random) -> Rings:
    """Edges that go forth and back, and positions that are repeated."""
    ring = box(0, 0, 40, 40)
    at, x = source.randrange(4), source.randint(-30, 70)
    ring[at + 1 : at + 1] = [(x, 77), ring[at]] if source.random() < 0.7 else [ring[at]]
    return [ring]


def wound_backwards(source: random.Random) -> Rings:
    return [ring[::-1] for ring in source.choice((island_with_lakes(200), archipelago, island_with_lakes(80)))(source)]


def bow(source: random.Random) -> Rings:
    width, height = source.randint(2, 30), source.randint(2, 30)
    return [[(0, 0), (width, height), (width, 0), (0, height + source.randint(0, 3))]]


KINDS: Dict[str, Callable[[random.Random], Rings]] = {
    "coast of 40": coast(40, 128),
    "coast of 160": coast(160, 128),
    "coast of 1600": coast(1600, 256),
    "coast of 10": coast(10, 64),
    "island of 80 with lakes": island_with_lakes(80),
    "island of 20 with lakes": island_with_lakes(20),
    "archipelago": archipelago,
    "ring over itself": over_itself,
    "polygons that overlap": overlapping,
    "river": river,
    "star": star,
    "zigzag in 1000": zigzag(1000, 16),
    "zigzag in 30": zigzag(30, 16),
    "comb": comb,
    "rings in a small square": in_a_small_square,
    "squares of 10, united": united_squares(10),
    "squares of 1, united": united_squares(1),
    "squares, each a polygon": squares_apart,
    "hole around its exterior": around_its_exterior,
    "hole outside": hole_outside,
    "holes that touch": holes_that_touch,
    "lakes that touch the shore": touching_the_shore,
    "spikes": spikes,
    "wound backwards": wound_backwards,
    "bow": bow,
}
