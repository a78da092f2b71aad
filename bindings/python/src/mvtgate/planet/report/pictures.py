"""The tiles of which the report has pictures: their bytes and what is drawn of them."""
from __future__ import annotations

import base64
import gzip
import json
from dataclasses import dataclass
from typing import Any, Callable, Mapping, Optional, Protocol, Sequence

from ..._faults import NotATile
from ..unpack import NotUnpacked, unpacked
from .excerpt import excerpt_of
from .firsts import Found
from .limits import PICTURED, PICTURES_SIZE, TILE_SIZE
from .texts import size_text

Dump = Callable[[bytes], Mapping[str, Any]]


class SourceLike(Protocol):
    """Where the tiles of the run are."""

    def tile(self, zoom: int, column: int, row: int) -> Optional[bytes]:
        """The stored bytes of a tile, packed or not. None where they can't be read any more."""


@dataclass(frozen=True)
class Picture:
    """What a picture is drawn from, as JSON; or else the reason why there is none."""

    data: Optional[str] = None
    reason: Optional[str] = None


class Pictures:
    """Makes pictures of the first faults, as long as there is room."""

    def __init__(self, sources: Sequence[SourceLike], dump: Dump) -> None:
        self._sources = sources
        self._dump = dump
        self._room = PICTURES_SIZE

    def of(self, listed: Sequence[Found]) -> Sequence[Optional[Picture]]:
        """A picture, or a reason, for each tile of a code, and nothing for those after the last one with a picture."""
        pictures = []
        count = 0
        for it in listed:
            picture = self._of(it) if count < PICTURED else None
            count += picture is not None and picture.data is not None
            pictures.append(picture)
        return pictures

    def _of(self, found: Found) -> Picture:
        if found.finding.size > TILE_SIZE:
            return Picture(reason=f"No picture: the tile has more than {size_text(TILE_SIZE)}.")
        if self._room <= 0:
            return Picture(reason="No picture: the report holds no more tiles.")
        tile = self._tile(found)
        if tile is None:
            return Picture(reason="No picture: the tile couldn't be read again as it was judged.")
        data = self._data(found, tile)
        if data is None:
            return Picture(reason="No picture: the tile doesn't have what the fault names.")
        if len(data) > self._room:
            return Picture(reason="No picture: the report has no room for this tile.")
        self._room -= len(data)
        return Picture(data)

    def _tile(self, found: Found) -> Optional[bytes]:
        """The tile's bytes, if they may be those that were judged."""
        place, finding = found.place, found.finding
        stored = self._sources[place.source].tile(place.zoom, place.column, place.row)
        try:
            tile = None if stored is None else unpacked(stored)
        except NotUnpacked:
            return None
        return tile if tile is not None and len(tile) == finding.size else None

    def _data(self, found: Found, tile: bytes) -> Optional[str]:
        fault = found.finding.fault
        assert fault is not None
        try:
            record = excerpt_of(self._dump(tile), fault) if fault["code"] >= 200 else None
        except (LookupError, NotATile):
            return None
        return json.dumps({"fault": fault, "tile": link_text(tile), "record": record}, separators=(",", ":"))


def link_text(tile: bytes) -> str:
    """The bytes in base64 as links of the page have them (that of RFC 4648 for addresses): packed where that is shorter."""
    packed = gzip.compress(tile, mtime=0)
    return base64.urlsafe_b64encode(packed if len(packed) < len(tile) else tile).decode().rstrip("=")
