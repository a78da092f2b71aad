"""Counts by names, of which there may be more than are kept."""
from __future__ import annotations

from collections import Counter
from dataclasses import dataclass
from typing import Dict, Optional, Set, Tuple

from .texts import cut


@dataclass(frozen=True, order=True)
class Label:
    """What is counted: a name that comes from a tile, or else words of the report itself."""

    text: str
    is_name: bool = True


class Labels:
    """The first names that come, each for itself, and one label for all others. Long names that begin alike are one."""

    def __init__(self, most: int, none: str, others: str) -> None:
        self._most = most
        self._none = Label(none, False)
        self.others = Label(others, False)
        self._known: Set[str] = set()

    def of(self, name: Optional[str]) -> Label:
        """The label under which a name is counted."""
        if name is None:
            return self._none
        short = cut(name)
        if short not in self._known:
            if len(self._known) >= self._most:
                return self.others
            self._known.add(short)
        return Label(short)


class CountsByCode:
    """How many tiles have their first fault of a code and in a layer, or how many faults there are of them."""

    def __init__(self, layers: Labels) -> None:
        self._layers = layers
        self._counts: Dict[int, Counter[Label]] = {}

    def add(self, code: int, layer: Optional[str], count: int) -> None:
        self._counts.setdefault(code, Counter())[self._layers.of(layer)] += count

    def codes(self) -> Tuple[Tuple[int, int], ...]:
        """Each code with its number, the greatest number first."""
        totals = ((code, sum(by_layer.values())) for code, by_layer in self._counts.items())
        return tuple(sorted(totals, key=lambda it: (-it[1], it[0])))

    def layers(self, code: int) -> Tuple[Tuple[Label, int], ...]:
        """The layers of a code, and no layer, with their numbers: the greatest number first, and all other layers last."""
        others = self._layers.others
        of_code = self._counts.get(code, Counter())
        return tuple(sorted(of_code.items(), key=lambda it: (it[0] == others, -it[1], not it[0].is_name, it[0])))

    def of(self, code: int) -> Counter[Label]:
        """The numbers of a code by layers."""
        return self._counts.get(code, Counter())
