"""What comes of the tiles of a piece."""
from __future__ import annotations

from dataclasses import dataclass
from typing import Iterator, List, Optional

import mvtgate

from .. import _library
from .._faults import fault_of_library
from .._files import LIMIT
from .._formats import Format, format_of
from ..planet.unpack import NotUnpacked, unpacked
from .answers import Abouts, Verdict
from .geojson import abouts_of, address_of
from .mending import Copies
from .pieces import Piece, Raw


@dataclass(frozen=True)
class Settings:
    """How tiles are judged."""

    profile: mvtgate.Profile = mvtgate.Profile.POLYGON
    is_confirming: bool = False
    allows_empty: bool = False
    has_all: bool = False
    is_quick: bool = False
    copies: Optional[Copies] = None
    has_places: bool = False


def _lines(tile: bytes, settings: Settings) -> str:
    """The text of each fault that is asked for, in a line."""
    if settings.has_all:
        return _library.faults(settings.profile, tile, settings.is_quick)
    return _library.check(settings.profile, tile, settings.is_quick) or ""


def _format(tile: bytes, lines: str) -> Optional[Format]:
    # (where the bytes are no tile there is one fault)
    return format_of(fault_of_library(next(_library.lines_of(lines))), tile)


def _confirmed(tile: bytes, lines: str, settings: Settings) -> Optional[List[bool]]:
    if not settings.is_confirming:
        return None
    return [mvtgate.confirm(tile, it, settings.profile) for it in _library.lines_of(lines)]


def _abouts(raw: Raw, tile: bytes, lines: str, settings: Settings) -> Optional[Abouts]:
    address = address_of(raw.file, raw.place) if settings.has_places else None
    if address is None:
        return None
    return Abouts.of(address, abouts_of(tile, map(fault_of_library, _library.lines_of(lines)), address))


def _judged(raw: Raw, settings: Settings) -> Verdict:
    if len(raw.data) > LIMIT:
        raise NotUnpacked(f"it is larger than {LIMIT} bytes")
    tile = unpacked(raw.data)
    if not tile and not settings.allows_empty:
        where = " when it is unpacked" if raw.data else ""
        return Verdict(raw.file, raw.place, error=f"it is empty{where}; --allow-empty takes that for a valid tile")
    lines = _lines(tile, settings)
    if not lines:
        return Verdict(raw.file, raw.place)
    confirmed = _confirmed(tile, lines, settings)
    mending = None if settings.copies is None else settings.copies.mend(raw, tile, settings.profile)
    return Verdict(raw.file, raw.place, lines, _format(tile, lines), confirmed, mending=mending, abouts=_abouts(raw, tile, lines, settings))


def _verdict(raw: Raw, settings: Settings) -> Verdict:
    if raw.error is not None:
        return Verdict(raw.file, raw.place, error=raw.error)
    try:
        return _judged(raw, settings)
    except NotUnpacked as error:
        return Verdict(raw.file, raw.place, error=str(error))
    except MemoryError:
        return Verdict(raw.file, raw.place, error="out of memory")


def verdicts_of(piece: Piece, settings: Settings) -> Iterator[Verdict]:
    """A verdict on each tile of a piece, as soon as it is judged."""
    return (_verdict(raw, settings) for raw in piece.tiles())
