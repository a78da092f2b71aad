"""What mending has to keep of a feature: its region but for what is near its edges, and positions near its old edges."""
from __future__ import annotations

from typing import Callable, Iterator, List, Optional, Set, Tuple

from shapely.geometry import LinearRing, MultiLineString, Polygon
from shapely.geometry.base import BaseGeometry
from shapely.ops import polygonize, unary_union

from shapes import Position, Ring, Rings, doubled_area, without_repeats

# units of the grid, the greatest of both coordinates
NEAR = 2
# the same as the crow flies
NEAR_AT_ANY_ANGLE = 2.9


def edges_of(ring: Ring) -> List[Tuple[Position, Position]]:
    return list(zip(ring, ring[1:] + ring[:1]))


def is_near(position: Position, edge: Tuple[Position, Position]) -> bool:
    """Whether the edge comes into the square around the position."""
    (ax, ay), (bx, by), (x, y) = *edge, position
    if max(ax, bx) < x - NEAR or min(ax, bx) > x + NEAR or max(ay, by) < y - NEAR or min(ay, by) > y + NEAR:
        return False
    corners = [(x + dx, y + dy) for dx in (-NEAR, NEAR) for dy in (-NEAR, NEAR)]
    sides = [(bx - ax) * (v - ay) - (by - ay) * (u - ax) for u, v in corners]
    return min(sides) <= 0 <= max(sides)


def far_positions(old: Rings, new: Rings) -> List[Position]:
    """The positions of the new rings that are no old ones, and near no old edge."""
    known: Set[Position] = {it for ring in old for it in ring}
    edges = [edge for ring in old for edge in edges_of(ring)]
    fresh = {it for ring in new for it in ring} - known
    return [it for it in fresh if not any(is_near(it, edge) for edge in edges)]


def winding(ring: Ring, x: float, y: float) -> int:
    """How often the ring goes round a place that isn't on it."""
    count = 0
    for (ax, ay), (bx, by) in edges_of(ring):
        side = (bx - ax) * (y - ay) - (by - ay) * (x - ax)
        if ay <= y < by and side > 0:
            count += 1
        elif by <= y < ay and side < 0:
            count -= 1
    return count


def filled(exterior: Ring, holes: Rings) -> BaseGeometry:
    """Where the exterior goes round and no hole does, each hole turned so that its own area is negative."""
    rings = [exterior, *holes]
    lines = unary_union(MultiLineString([edge for ring in rings for edge in edges_of(ring) if edge[0] != edge[1]]))
    faces = []
    for face in polygonize(lines):
        it = face.representative_point()
        in_holes = sum(winding(hole, it.x, it.y) * (1 if doubled_area(hole) > 0 else -1) for hole in holes)
        if winding(exterior, it.x, it.y) != 0 and in_holes == 0:
            faces.append(face)
    return unary_union(faces)


def is_beside(hole: Ring, exterior: Ring) -> bool:
    """Whether no edge of the hole has the inside of the exterior on a side."""
    return LinearRing(hole).intersection(filled(exterior, [])).length == 0


# whether a polygon breaks no rule by itself
IsRight = Callable[[Rings], bool]


def begin_backwards(rings: Rings) -> bool:
    """Whether the first ring that has an area is a hole."""
    return next((it for it in map(doubled_area, rings) if it), 0) < 0


def polygons_meant(rings: Rings, is_right: Optional[IsRight]) -> List[Rings]:
    """The polygons that the rings of a feature are meant to be. A hole outside of its exterior is left out where the polygon around it
    may not be changed, since it is right."""
    kept = [it for it in map(without_repeats, rings) if len(it) > 2]
    areas = [doubled_area(it) for it in kept]
    if begin_backwards(kept):
        return nested(kept)
    polygons: List[Rings] = []
    alone: List[Rings] = []
    for ring, area in zip(kept, areas):
        if area > 0:
            polygons.append([ring])
        elif area == 0:
            alone.append([ring])
        else:
            polygons[-1].append(ring)
    return with_strays_at_home(polygons, is_right) + alone


def with_strays_at_home(polygons: List[Rings], is_right: Optional[IsRight]) -> List[Rings]:
    strays = []
    fixed = [is_right is not None and is_right(it) for it in polygons]
    for polygon in polygons:
        own = [it for it in polygon[1:] if is_beside(it, polygon[0])]
        strays += own
        polygon[1:] = [it for it in polygon[1:] if it not in own]
    found: List[Rings] = []
    for stray in strays:
        around = [at for at, it in enumerate(polygons) if filled(it[0], []).buffer(1e-9).contains(LinearRing(stray))]
        if not around:
            found.append([stray[::-1]])
            continue
        home = min(around, key=lambda at: doubled_area(polygons[at][0]))
        if not fixed[home]:
            polygons[home].append(stray)
    return polygons + found


def nested(rings: Rings) -> List[Rings]:
    """The roles by nesting: a ring in an even number of others is an exterior, and in an odd number a hole of the least of them."""
    regions = [filled(it, []) for it in rings]
    around = [[b for b, other in enumerate(rings) if b != a and regions[b].buffer(1e-9).contains(LinearRing(ring))
               and abs(doubled_area(other)) > abs(doubled_area(ring))] for a, ring in enumerate(rings)]
    polygons = {a: [ring] for a, ring in enumerate(rings) if len(around[a]) % 2 == 0}
    for a, ring in enumerate(rings):
        if a not in polygons:
            home = min((it for it in around[a] if it in polygons), key=lambda it: abs(doubled_area(rings[it])))
            polygons[home].append(ring)
    return list(polygons.values())


def region_meant(rings: Rings, is_right: Optional[IsRight]) -> BaseGeometry:
    return unary_union([filled(it[0], it[1:]) for it in polygons_meant(rings, is_right)])


def is_clear(rings: Rings) -> bool:
    """Whether the rings say which of them are exteriors: by their areas, or where none of them meets another one."""
    if not begin_backwards(rings):
        return True
    lines = [LinearRing(it) for it in rings if len(it) > 2]
    return all(a.disjoint(b) for at, a in enumerate(lines) for b in lines[:at])


def region_of(rings: Rings) -> BaseGeometry:
    """The region of rings that keep the rules."""
    polygons: List[Rings] = []
    for ring in rings:
        if doubled_area(ring) > 0:
            polygons.append([])
        polygons[-1].append(ring)
    return unary_union([Polygon(it[0], it[1:]) for it in polygons])


def mistakes(old: Rings, new: Rings, is_exact: bool, is_right: Optional[IsRight]) -> Iterator[str]:
    """What is wrong with new rings in place of old ones, of which nothing was cut or rounded where that is said."""
    far = far_positions(old, new)
    if far:
        yield f"positions far from all old edges: {far[:3]}"
    if not is_clear(old):
        return
    changed = region_meant(old, is_right).symmetric_difference(region_of(new))
    if is_exact and changed.area > 1e-6:
        yield f"another area by {changed.area}, with nothing cut or rounded"
    edges = MultiLineString([edge for ring in old for edge in edges_of(ring) if edge[0] != edge[1]])
    left = changed.difference(edges.buffer(NEAR_AT_ANY_ANGLE))
    if left.area > 1e-6:
        yield f"an area of {left.area} changed far from all old edges, at {left.representative_point()}"
