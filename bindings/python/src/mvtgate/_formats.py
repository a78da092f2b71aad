"""Other formats that are taken for tiles, by how their bytes begin. faults.json has their words."""
from __future__ import annotations

import functools
from dataclasses import dataclass
from typing import TYPE_CHECKING, List, Optional, Tuple

from . import _library, _words
from ._faults import Fault

if TYPE_CHECKING:
    from _typeshed import ReadableBuffer

# (so many bytes are looked at, as bindings/README.md of the repository says)
_HEAD = 1024
_LAST_WIRE_FAULT = 111


@dataclass(frozen=True)
class Format:
    """A format of files that are often taken for tiles: `name` is gzip, zlib, zstd, sqlite, pmtiles, png or json."""

    name: str
    title: str
    sentence: str
    remedy: str


@dataclass(frozen=True)
class _Rule:
    """Bytes are of the format where they begin with one of `begins`, each of `after` in front of them passed over."""

    format: Format
    begins: Tuple[bytes, ...]
    after: Tuple[bytes, ...]

    def holds(self, head: bytes) -> bool:
        at = 0
        while skipped := next((it for it in self.after if head.startswith(it, at)), None):
            at += len(skipped)
        return head.startswith(self.begins, at)


@functools.lru_cache(maxsize=None)
def _rules() -> List[_Rule]:
    rules = []
    for name, words in _words.words()["formats"].items():
        begins, after = (tuple(map(bytes.fromhex, words.get(key, ()))) for key in ("begins", "after"))
        rules.append(_Rule(Format(name, words["title"], words["sentence"], words["remedy"]), begins, after))
    return rules


def format_of(fault: Fault, tile: ReadableBuffer) -> Optional[Format]:
    """The format that the bytes of a tile begin as, where its fault is one of the bytes (101 to 111); None for any other."""
    if fault.code > _LAST_WIRE_FAULT:
        return None
    head = _library.head(tile, _HEAD)
    return next((rule.format for rule in _rules() if rule.holds(head)), None)
