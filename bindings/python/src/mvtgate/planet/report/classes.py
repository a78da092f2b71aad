"""The classes of codes, which have the map's colours, and which of two codes is worse.

The worst are those that keep a reader from the most: of bytes that are no tile nothing can be read; a fault of a layer is one of
all its features; wrong tags or commands spoil a feature; wrong polygons are still drawn, though perhaps not as they were meant.
That is the order of the codes, so the lowest code is the worst one.
"""
from __future__ import annotations

from dataclasses import dataclass
from typing import Tuple


@dataclass(frozen=True)
class CodeClass:
    """The codes from `first` up to the next class."""

    name: str
    first: int
    label: str


CLASSES: Tuple[CodeClass, ...] = (
    CodeClass("wire", 100, "the bytes are no tile"),
    CodeClass("layers", 200, "layers"),
    CodeClass("tags", 300, "tags"),
    CodeClass("commands", 400, "commands"),
    CodeClass("polygons", 500, "polygons"),
)


def class_of(code: int) -> CodeClass:
    """The class of a code."""
    return max((it for it in CLASSES if it.first <= code), key=lambda it: it.first)


def worse(one: int, other: int) -> int:
    """The worse one of two codes, where 0 is none."""
    return min(one or other, other or one)
