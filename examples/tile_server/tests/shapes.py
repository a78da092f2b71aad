"""Shapes of the kinds of which PostGIS makes faulty tiles, as the SQL of a geometry in units of a tile. They are random, and of one
kind the same in each run."""
from __future__ import annotations

import math
import random
from typing import Callable, Dict, List, Sequence, Tuple

Position = Tuple[float, float]

def _ring(x: float, y: float, radius: float, vertices: int, roughness: float) -> List[Position]:
    """A ring around a point, at distances that differ by so much of the radius."""
    turns = [2 * math.pi * it / vertices for it in range(vertices)]
    far = [radius * (1 + roughness * random.uniform(-1, 1)) for _ in turns]
    return [(x + it * math.cos(turn), y + it * math.sin(turn)) for it, turn in zip(far, turns)]


def _coast(x: float, y: float, radius: float, halvings: int, roughness: float) -> List[Position]:
    """A ring each of whose edges is halved again and again, with its middle moved aside."""
    positions = _ring(x, y, radius, 6, 0.2)
    for _ in range(halvings):
        pairs = list(zip(positions, positions[1:] + positions[:1]))
        aside = [random.uniform(-roughness, roughness) for _ in pairs]
        middles = [((a + c) / 2 - (d - b) * by, (b + d) / 2 + (c - a) * by) for ((a, b), (c, d)), by in zip(pairs, aside)]
        positions = [it for pair in zip(positions, middles) for it in pair]
    return positions


def _text(positions: Sequence[Position]) -> str:
    return f"(({', '.join(f'{x!r} {y!r}' for x, y in [*positions, positions[0]])}))"


def _polygon(positions: Sequence[Position]) -> str:
    return f"ST_GeomFromText('POLYGON{_text(positions)}')"


def _united(parts: Sequence[str]) -> str:
    return f"ST_Union(ARRAY[{', '.join(parts)}])"


def _made_valid(positions: Sequence[Position]) -> str:
    return f"ST_MakeValid({_polygon(positions)}, 'method=structure keepcollapsed=false')"


def small_coast() -> str:
    """A coast of 384 vertices, some 40 units across, which rounding makes touch itself."""
    return _made_valid(_coast(100, 100, 20, 6, 0.45))


def island_with_lakes() -> str:
    """An island some 80 units across with up to 12 lakes, some of them close to each other or to the shore."""
    around = _made_valid(_coast(100, 100, 40, 5, 0.3))
    middles = [(random.uniform(80, 120), random.uniform(80, 120), random.uniform(2, 5)) for _ in range(12)]
    return f"ST_Difference({around}, {_united([_made_valid(_ring(x, y, radius, 9, 0.2)) for x, y, radius in middles])})"


def lakes_at_the_shore() -> str:
    """Land with lakes, each of which has a vertex in common with the shore, or with the lake between it and the shore."""
    shore, parts = _ring(500, 500, 400, 24, 0.1), []
    for x, y in random.sample(shore, 8):
        far, turn = math.hypot(x - 500, y - 500), math.atan2(y - 500, x - 500)

        def inside(depth: float, aside: float) -> Position:
            return 500 + depth * far * math.cos(turn + aside), 500 + depth * far * math.sin(turn + aside)

        outer = [(x, y), inside(random.uniform(0.7, 0.8), -0.07), inside(0.7, 0.07)]
        inner = [outer[1], inside(0.4, -0.12), inside(random.uniform(0.3, 0.5), 0.02)]
        parts += [_polygon(outer), _polygon(inner)]
    return f"ST_Difference({_polygon(shore)}, {_united(parts)})"


def squares() -> str:
    """Squares of a raster, united."""
    corners = [(100 + 10 * x, 100 + 10 * y) for x in range(8) for y in range(8) if random.random() < 0.75]
    return _united([f"ST_MakeEnvelope({x}, {y}, {x + 10}, {y + 10})" for x, y in corners])


def cleaned_ring() -> str:
    """A ring that ran over itself, rounded to the grid and then made valid."""
    return f"ST_MakeValid(ST_SnapToGrid({_polygon(_ring(500, 500, 300, 20, 0.9) + _coast(500, 500, 300, 2, 0.9))}, 1))"


def two_that_overlap() -> str:
    """Two polygons of one feature that overlap."""
    pair = ", ".join(_text(_ring(x, 500, 100, 12, 0.3)) for x in (500, 570))
    return f"ST_GeomFromText('MULTIPOLYGON({pair})')"


# the kinds by their names, as docs/POSTGIS.md has them
KINDS: Dict[str, Callable[[], str]] = {
    "lakes that touch the shore, or each other": lakes_at_the_shore,
    "squares of a raster, united": squares,
    "rings over themselves, rounded and made valid": cleaned_ring,
    "coasts of 384 vertices, 40 units across": small_coast,
    "islands 80 units across, with lakes": island_with_lakes,
    "two polygons of a feature that overlap": two_that_overlap,
}


def shapes_of(kind: str, count: int) -> List[str]:
    """So many shapes of a kind."""
    random.seed(kind)
    return [KINDS[kind]() for _ in range(count)]
