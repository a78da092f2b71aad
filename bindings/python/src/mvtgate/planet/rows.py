"""The rows of the data behind the faults, by the ids of features: how many tiles and zooms each of them breaks."""
from __future__ import annotations

import csv
import io
import os
from dataclasses import dataclass
from typing import Iterable, Iterator, List, Optional

from .records import Place
from .temporary import Temporary
from .whole_file import WholeFile

ROWS = "rows.csv"
_HEAD = ("source", "layer", "feature_id", "tiles", "zooms", "first_zoom", "last_zoom", "faults", "code", "first_tile")

_TABLE = """
    CREATE TABLE rows (source INTEGER, layer TEXT, id TEXT, tiles INTEGER, zooms INTEGER, faults INTEGER, code INTEGER,
        first TEXT, last TEXT, PRIMARY KEY (source, layer, id)) WITHOUT ROWID"""
_ADD = """
    INSERT INTO rows VALUES (?1, ?2, ?3, 1, ?4, 1, ?5, ?6, ?6)
    ON CONFLICT DO UPDATE SET tiles = tiles + (last <> ?6), zooms = zooms | ?4, faults = faults + 1, code = min(code, ?5), last = ?6"""
_ALL = "SELECT source, layer, id, tiles, zooms, faults, code, first FROM rows ORDER BY tiles DESC, faults DESC, code, source, layer, length(id), id"


@dataclass(frozen=True)
class Row:
    """A layer and a feature's id, and what they break. `code` is the worst."""

    source: int
    layer: str
    feature_id: int
    tiles: int
    zooms: List[int]
    faults: int
    code: int
    first_tile: str


class Rows:
    """Counts by layers and ids. They are in a file of the system's, so that their number is no matter."""

    def __init__(self) -> None:
        self._database = Temporary(_TABLE)
        self.nameless = 0

    def add(self, place: Place, layer: Optional[str], feature_id: Optional[int], code: int) -> None:
        """A fault, in the order of the tiles."""
        if layer is None or feature_id is None:
            self.nameless += 1
            return
        tile = f"{place.zoom}/{place.column}/{place.row}"
        # (an id may have 64 bits without a sign)
        self._database.execute(_ADD, (place.source, layer, str(feature_id), 1 << place.zoom, code, tile))

    @property
    def count(self) -> int:
        found: int = self._database.execute("SELECT count(*) FROM rows").fetchone()[0]
        return found

    def worst(self, most: Optional[int] = None) -> Iterator[Row]:
        """Those that break most tiles first."""
        query = _ALL if most is None else f"{_ALL} LIMIT {most}"
        for source, layer, identity, tiles, zooms, faults, code, first in self._database.execute(query):
            yield Row(source, layer, int(identity), tiles, [it for it in range(31) if zooms >> it & 1], faults, code, first)

    def write(self, folder: str, paths: List[str]) -> None:
        """Writes rows.csv. (Commas, quotes and ends of lines in names are quoted, as RFC 4180 has it.)"""
        with WholeFile(os.path.join(folder, ROWS)) as file:
            file.write(_line(_HEAD))
            for it in self.worst():
                numbers = (it.tiles, len(it.zooms), it.zooms[0], it.zooms[-1], it.faults, it.code)
                file.write(_line((paths[it.source], it.layer, it.feature_id, *numbers, it.first_tile)))

    def close(self) -> None:
        self._database.close()


def _line(cells: Iterable[object]) -> str:
    text = io.StringIO()
    # (it quotes cells with a character of the line's end, so it is told both)
    csv.writer(text, lineterminator="\r\n").writerow(cells)
    return text.getvalue().removesuffix("\r\n") + "\n"
