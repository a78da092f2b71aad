"""What is no fault of a tile and may still be a mistake."""
from __future__ import annotations

from dataclasses import asdict, dataclass
from typing import Optional

from . import _words


@dataclass(frozen=True)
class Advice:
    """One thing that a tile may hold and had better not.

    `kind` is no_layer, no_feature, equal_key or equal_id. The others are counted from 0, and None where the kind has none: the
    layer, and the places of the two keys or features that are the same.
    """

    kind: str
    layer: Optional[int] = None
    first: Optional[int] = None
    second: Optional[int] = None

    def __str__(self) -> str:
        return f"{self.kind}: {self.sentence}"

    @property
    def title(self) -> str:
        """What the kind means, in some words."""
        return _words.words_of_advice(self.kind)["title"]

    @property
    def sentence(self) -> str:
        """What it is, in a sentence with its numbers."""
        return _words.fill(_words.words_of_advice(self.kind)["sentence"], asdict(self))

    @property
    def place(self) -> str:
        """Where it is, in words: 'layer 0, key 3'."""
        return _words.fill(_words.words_of_advice(self.kind)["place"], asdict(self))
