"""What a worker makes of a tile that is refused, where tiles are mended."""
from __future__ import annotations

import gzip
import hashlib
import json
from dataclasses import dataclass
from typing import Any, Dict, Iterator, List, Mapping, Optional, Tuple

import mvtgate

from ... import _library
from ..geojson import Address
from ..geometry import box_of
from ..mercator import bounds
from ..names import Names
from ..pack import packed_as

_SUM = 16
_json_of = json.JSONEncoder(ensure_ascii=False, separators=(",", ":")).encode


def sum_of(stored: bytes) -> str:
    """By which the stored bytes of a tile are told from those of another one."""
    return hashlib.blake2b(stored, digest_size=_SUM).hexdigest()


@dataclass
class Mending:
    """What became of a refused tile: how many features were mended, and how many left out; or the fault for which it stays.

    `before` is the sum of the bytes that were stored. Of a mended tile `at` says where the new ones are in the run's store, of the
    length `size`, and behind them the packed lines of its changes.
    """

    mended: int = 0
    dropped: int = 0
    before: str = ""
    at: int = 0
    size: int = 0
    lines: int = 0
    stays: Optional[Dict[str, Any]] = None

    @property
    def is_mended(self) -> bool:
        return self.stays is None

    @classmethod
    def of(cls, members: Mapping[str, Any]) -> Mending:
        """That of a line of the journal."""
        return cls(**members)


def _lines_of(address: Address, tile: bytes, changed: List[Dict[str, Any]]) -> Iterator[Dict[str, Any]]:
    """A line for each changed feature. Areas are in square units of the tile's grid."""
    names = Names(tile)
    for it in changed:
        subject = names.subject(it["layer"], it["feature"])
        # (of a layer whose extent is 0 nothing is anywhere)
        box = None if subject.feature is None or subject.extent == 0 else box_of(subject.feature)
        areas = [int(area) / 2 for area in it.get("area", ())]
        yield {
            "layer": subject.layer,
            "feature_id": subject.feature_id,
            "layer_number": it["layer"],
            "feature": it["feature"],
            "what": it["what"],
            **({"area_before": areas[0], "area_after": areas[1]} if areas else {}),
            **{key: it[key] for key in ("polygons", "vertices", "crossings", "cuts") if key in it},
            "extent": subject.extent,
            "bounds": None if box is None else bounds(*address, box, subject.extent),
        }


def mend(profile: mvtgate.Profile, is_dropping: bool, address: Address, stored: bytes, tile: bytes) -> Tuple[Mending, bytes]:
    """What becomes of a tile that is refused, and the bytes for the store, if there are some."""
    status, mended, text = _library.mend(profile, tile, is_dropping)
    told = json.loads(text)
    if status == _library.NO:
        return Mending(stays=told), b""
    changed: List[Dict[str, Any]] = told["changed"]
    data = packed_as(stored, mended)
    lines = "".join(f"{_json_of(it)}\n" for it in _lines_of(address, tile, changed))
    packed = gzip.compress(lines.encode(), mtime=0)
    dropped = sum(it["what"] == "dropped" for it in changed)
    return Mending(len(changed) - dropped, dropped, sum_of(stored), 0, len(data), len(packed)), data + packed


def changes_in(packed: bytes) -> List[Dict[str, Any]]:
    """The lines of the changes of a tile."""
    return [json.loads(it) for it in gzip.decompress(packed).splitlines()]
