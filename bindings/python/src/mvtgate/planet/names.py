"""The name of a fault's layer, and the id of its feature, for people who look for them."""
from __future__ import annotations

import codecs
import itertools
from typing import NamedTuple, Optional

from .._faults import Fault
from .wire import EXTENT, FEATURE, ID, LAYER, NAME, number_of, payloads

# (bytes of a name that are kept; a tile may have one of megabytes)
_LONGEST_NAME = 200
_USUAL_EXTENT = 4096
_decoder = codecs.getincrementaldecoder("utf-8")


def _name_of(layer: memoryview) -> Optional[str]:
    raw = next((it for it in payloads(layer, NAME) if isinstance(it, memoryview)), None)
    if raw is None:
        return None
    is_whole = len(raw) <= _LONGEST_NAME
    # (of a name that isn't whole, a character that is cut is left out)
    name = _decoder(errors="replace").decode(bytes(raw[:_LONGEST_NAME]), final=is_whole)
    return name if is_whole else f"{name}…"


def _extent_of(layer: memoryview) -> int:
    found = number_of(layer, EXTENT)
    return _USUAL_EXTENT if found is None else found


def _id_of(feature: memoryview) -> Optional[int]:
    found = number_of(feature, ID)
    return found if found is None or found < 1 << 64 else None


class _Walk:
    """The payloads of the fields of a number, for indices that don't get less."""

    def __init__(self, message: memoryview, number: int) -> None:
        self._left = (it for it in payloads(message, number) if isinstance(it, memoryview))
        self._taken = 0
        self._last: Optional[memoryview] = None

    def at(self, index: int) -> Optional[memoryview]:
        """The payload of the field that occurs `index` times before it."""
        if index >= self._taken:
            self._last = next(itertools.islice(self._left, index - self._taken, None), None)
            self._taken = index + 1
        return self._last


class Subject(NamedTuple):
    """What a fault or a change is about, as far as the tile has it."""

    layer: Optional[str] = None
    feature_id: Optional[int] = None
    extent: int = _USUAL_EXTENT
    feature: Optional[memoryview] = None


class Names:
    """What faults of one tile are about, in the order of faults, by two walks over it: for those of layers, and of features.

    This decides nothing, so it takes of bytes that are no tile what can be read.
    """

    def __init__(self, tile: bytes) -> None:
        self._tile = memoryview(tile)
        self._layers = _Walk(self._tile, LAYER)
        self._at = -1
        self._layer = Subject()
        self._features: Optional[_Walk] = None

    def subject_of(self, fault: Fault) -> Subject:
        """What a fault is about, as far as it names it and the tile has it."""
        # (of two layers with one name the second one, since the order goes by it)
        index = fault.second if fault.code == 202 else fault.layer
        return self.subject(index, fault.feature) if isinstance(index, int) else Subject()

    def subject(self, layer: int, feature: Optional[int]) -> Subject:
        """A layer by its number, or a feature of it."""
        if layer != self._at:
            self._go_to(layer)
        found = None if self._features is None or feature is None else self._features.at(feature)
        return self._layer if found is None else self._layer._replace(feature_id=_id_of(found), feature=found)

    def _go_to(self, index: int) -> None:
        if index < self._at:
            self._layers = _Walk(self._tile, LAYER)
        self._at = index
        layer = self._layers.at(index)
        self._features = None if layer is None else _Walk(layer, FEATURE)
        self._layer = Subject() if layer is None else Subject(_name_of(layer), extent=_extent_of(layer))
