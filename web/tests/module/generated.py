"""Tiles for compare_native: those of tiles/ with broken bytes, and polygons. The same seed gives the same tiles."""
from __future__ import annotations

import importlib.machinery
import importlib.util
import math
import pathlib
import random
from typing import Any, Iterator, List, Tuple

TOP = pathlib.Path(__file__).resolve().parents[3]
GREATEST = 2**30 - 1
# those of each layer that tests/polygons makes
VERSION_AND_NAME = b"\x78\x02\x0a\x01a"

Ring = List[Tuple[int, int]]


def load(path: str) -> Any:
    """A script of the repository, as a module."""
    loader = importlib.machinery.SourceFileLoader(pathlib.Path(path).name, str(TOP / path))
    spec = importlib.util.spec_from_loader(loader.name, loader)
    assert spec is not None
    module = importlib.util.module_from_spec(spec)
    loader.exec_module(module)
    return module


plane = load("tests/polygons")


def samples() -> List[bytes]:
    return [it.read_bytes() for it in sorted((TOP / "tiles").glob("*.mvt"))]


def broken(source: random.Random, tiles: List[bytes]) -> bytes:
    """A tile with one to four changes: another byte, one more or one less, or the rest of another tile."""
    tile = bytearray(source.choice(tiles))
    for _ in range(source.randint(1, 4)):
        at = source.randrange(len(tile) + 1)
        kind = source.choice(("change", "change", "insert", "remove", "splice"))
        if kind == "splice":
            tile[at:] = source.choice(tiles)[at:]
        elif kind == "insert":
            tile.insert(at, source.randrange(256))
        else:
            tile[at : at + 1] = bytes([source.randrange(256)] if kind == "change" else [])
    return bytes(tile)


def round_ring(source: random.Random, is_hole: bool) -> Ring:
    """A ring round a centre, of few or many vertices, small or as large as coordinates go. Mostly it doesn't meet itself."""
    reach = source.choice((20, 300, 4096, 1 << 20, GREATEST // 2))
    x, y = (source.randint(-reach, reach) for _ in range(2))
    count = source.randint(3, source.choice((8, 40, 200)))
    angles = sorted(source.uniform(0, 2 * math.pi) for _ in range(count))
    lengths = [source.uniform(0.1, 1) * reach / (3 if is_hole else 1) for _ in angles]
    ring = [(x + round(r * math.cos(a)), y + round(r * math.sin(a))) for a, r in zip(angles, lengths)]
    return ring[::-1] if is_hole else ring


def round_rings(source: random.Random) -> List[Ring]:
    return [round_ring(source, at > 0 and source.random() < 0.5) for at in range(source.choice((1, 1, 2, 3)))]


def polygons(source: random.Random) -> bytes:
    """A layer of one to three features of polygons."""
    features = [source.choice((plane.some_rings, round_rings))(source) for _ in range(source.choice((1, 1, 2, 3)))]
    inner = b"".join(feature_of(plane.tile_of(it)) for it in features)
    layer: bytes = plane.field(3, VERSION_AND_NAME + inner)
    return layer


def feature_of(tile: bytes) -> bytes:
    """The field of the feature of a tile that tests/polygons made: what comes after the layer's version and name."""
    at = 1
    while tile[at] > 127:
        at += 1
    return tile[at + 1 + len(VERSION_AND_NAME) :]


def generated(seed: int, count: int) -> Iterator[bytes]:
    source, tiles = random.Random(seed), samples()
    for _ in range(count):
        if source.random() < 0.4:
            yield broken(source, tiles)
        else:
            tile = polygons(source)
            yield broken(source, [tile]) if source.random() < 0.1 else tile
