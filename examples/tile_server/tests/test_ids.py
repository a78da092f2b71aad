"""The ids of features as the server reads them, held against those of `dump`."""
from __future__ import annotations

from typing import List, Optional, Tuple

import mvtgate
import pytest

from conftest import CLOSE_PONDS, FIELD, PLACES, PONDS
from running import TOP, Server, path_of
from tile_server.ids import ids_of

SAMPLES = sorted((TOP / "tiles").glob("*.mvt"))


def ids_of_dump(tile: bytes) -> List[Tuple[Tuple[int, int], Optional[int]]]:
    """The place and id of each feature."""
    layers = enumerate(mvtgate.dump(tile)["layers"])
    return [((number, place), it["id"]) for number, layer in layers for place, it in enumerate(layer["features"])]


@pytest.mark.parametrize("column", [FIELD, CLOSE_PONDS, PLACES, PONDS])
def test_ids_of_the_tables(ungated: Server, column: int) -> None:
    tile = ungated.get(path_of(column)).body
    wanted = ids_of_dump(tile)
    assert ids_of(tile, [it for it, _ in wanted]) == [it for _, it in wanted] and None not in [it for _, it in wanted]
    # (in any order, and some alone)
    assert ids_of(tile, [wanted[-1][0], wanted[0][0]]) == [wanted[-1][1], wanted[0][1]]


def test_ids_of_the_samples() -> None:
    """With fields in any order, unknown ones, and features without an id."""
    seen = set()
    for path in SAMPLES:
        tile = path.read_bytes()
        try:
            wanted = ids_of_dump(tile)
        except mvtgate.NotATile:
            continue
        assert ids_of(tile, [it for it, _ in wanted]) == [it for _, it in wanted], path.name
        seen |= {it for _, it in wanted}
    assert None in seen and len(seen) > 1
