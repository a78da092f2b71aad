"""A planet of sample tiles, and the faults.jsonl that has to come of it, from the lines that the samples are known to get."""
from __future__ import annotations

import gzip
import json
import pathlib
from dataclasses import dataclass, field
from typing import Any, Dict, List, Optional, Sequence, Tuple

from conftest import TOP, load
from planet.helpers.runs import INDEX, SAMPLE, VALID, Tile, fault_line, jsonl, only_line, place, write_database

reader = load(TOP / "tiles/check_folder")
# samples with one layer's name and feature, of some codes
FAULTY = ["crossing_edges", "ring_without_area", "hole_outside", "count_zero", "no_such_key", "two_layers_of_one_name", "cut_geometry"]


def names_by_reader(tile: bytes, line: str) -> Tuple[Optional[str], Optional[int]]:
    """The name of a fault's layer and the id of its feature, read by the script that tests the program's dump."""
    members = json.loads(line)
    index = members.get("layer", members.get("first"))
    if index is None:
        return None, None
    layer = [it for number, it in reader.fields(tile) if number == 3][index]
    known = list(reader.fields(layer))
    name: bytes = reader.one(known, 1)
    if "feature" not in members:
        return name.decode(), None
    feature = [it for number, it in known if number == 2][members["feature"]]
    return name.decode(), reader.one(_fields_before_fault(feature), 1)


def _fields_before_fault(part: bytes) -> List[Tuple[int, Any]]:
    found: List[Tuple[int, Any]] = []
    try:
        for it in reader.fields(part):
            found.append(it)
    except IndexError:
        pass
    return found


@dataclass
class Planet:
    """A database, and the lines that are expected for it, by the places of its tiles."""

    path: pathlib.Path
    tiles: List[Tile] = field(default_factory=list)
    lines: Dict[Tuple[int, int, int], Dict[str, Any]] = field(default_factory=dict)

    def add(self, zoom: int, column: int, row: int, name: Optional[str], is_packed: bool = False, mark: bytes = b"") -> None:
        """A sample tile, or a valid one, with a mark for the shim."""
        whole = (SAMPLE[name].tile if name else VALID) + mark
        self.put(zoom, column, row, gzip.compress(whole, 1, mtime=0) if is_packed else whole, len(whole), name)

    def put(self, zoom: int, column: int, row: int, stored: Any, size: int, name: Optional[str]) -> None:
        """A tile that has the fault of a sample, or none."""
        tile = Tile(zoom, column, row, stored)
        self.tiles.append(tile)
        if name:
            line = only_line(name)
            names = names_by_reader(SAMPLE[name].tile, line)
            self.lines[zoom, column, row] = fault_line(self.path, tile, size, line, names)

    def fail(self, zoom: int, column: int, row: int, stored: Any, size: Optional[int], error: str) -> None:
        """A tile that can't be judged."""
        self.tiles.append(Tile(zoom, column, row, stored))
        self.blame(zoom, column, row, size, error)

    def blame(self, zoom: int, column: int, row: int, size: Optional[int], error: str) -> None:
        """The tile at a place can't be judged."""
        self.lines[zoom, column, row] = {**place(self.path, Tile(zoom, column, row, None)), "size": size, "error": error}

    def write(self, is_unique: bool = True) -> Planet:
        index = INDEX if is_unique else INDEX.replace("UNIQUE", "")
        write_database(self.path, self.tiles, index=index)
        return self

    @property
    def text(self) -> str:
        """faults.jsonl, in the order of the database."""
        places = sorted({(it.zoom, it.column, it.tms_row, it.row) for it in self.tiles})
        return self.text_of([(zoom, column, row) for zoom, column, _, row in places])

    def text_of(self, places: List[Tuple[int, int, int]]) -> str:
        """The lines of these places, as far as they have one."""
        return jsonl(self.lines[it] for it in places if it in self.lines)


def full_zoom(path: pathlib.Path, zoom: int, marked: Sequence[Tuple[int, bytes]] = ()) -> Planet:
    """All tiles of a zoom, of which each ninth has a fault and each fifth is packed, and some have a mark."""
    planet, marks = Planet(path), dict(marked)
    for at in range(4**zoom):
        name = FAULTY[at // 9 % len(FAULTY)] if at % 9 == 8 else None
        planet.add(zoom, at >> zoom, at % 2**zoom, name, at % 5 == 0, marks.get(at, b""))
    return planet.write()
