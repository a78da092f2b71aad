"""How many tiles are valid, and how many aren't."""
from __future__ import annotations

import collections
from typing import Counter, List

from .. import _words
from .answers import Answer


class Counts:
    """All answers so far. With `has_all` a tile may have several faults."""

    def __init__(self, has_all: bool = False) -> None:
        self._has_all = has_all
        self.valid = 0
        self.faulty = 0
        self.failed = 0
        self.unconfirmed = 0
        self.mended = 0
        self.dropped = 0
        self.not_mended = 0
        self.codes: Counter[int] = collections.Counter()

    def add(self, answer: Answer) -> None:
        """One more answer."""
        self.valid += answer.is_valid
        self.failed += answer.error is not None
        self.unconfirmed += answer.confirmed is False
        if answer.fault is not None:
            self.faulty += not answer.is_further
            self.codes[answer.fault.code] += 1
        if answer.mending is not None:
            self.mended += answer.mending.is_mended
            self.not_mended += not answer.mending.is_mended
            self.dropped += answer.mending.count("dropped")

    @property
    def faults(self) -> int:
        return sum(self.codes.values())

    @property
    def staying(self) -> int:
        """How many tiles keep their faults."""
        return self.faulty - self.mended

    @property
    def tiles(self) -> int:
        return self.valid + self.faulty + self.failed

    def summary(self) -> List[str]:
        """Lines with the number of each code, the most frequent one first, where there are several faults; and a last line."""
        lines = []
        if self.faults > 1:
            codes = sorted(self.codes.items(), key=lambda it: (-it[1], it[0]))
            width = len(str(codes[0][1]))
            word = "times" if self._has_all else "with"
            lines = [f"  {number:{width}} {word} {code}: {_words.words_of_fault(code)['title']}" for code, number in codes]
        said = [f"{self.valid} valid", f"{self.faulty} with a fault"]
        if self._has_all:
            said.append(f"{self.faults} fault{'' if self.faults == 1 else 's'} in all")
        if self.failed:
            said.append(f"{self.failed} not judged")
        if self.unconfirmed:
            said.append(f"{self.unconfirmed} not confirmed")
        return [*lines, f"{self.tiles} tile{'' if self.tiles == 1 else 's'}: {', '.join(said)}{self._mended}"]

    @property
    def _mended(self) -> str:
        if not self.mended and not self.not_mended:
            return ""
        dropped = f", without {self.dropped} feature{'' if self.dropped == 1 else 's'}" if self.dropped else ""
        return f"; {self.mended} mended{dropped}, {self.not_mended} not mended"
