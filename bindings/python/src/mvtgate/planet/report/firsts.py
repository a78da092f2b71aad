"""What is kept of single tiles: the first ones of each kind, and the slowest ones."""
from __future__ import annotations

from collections import Counter
from dataclasses import dataclass, replace
from typing import Any, Dict, Generic, Hashable, Iterator, List, Set, Tuple, TypeVar

from ..records import Finding, Judged, Partition, Place, Timed
from .counts import Label, Labels
from .limits import LISTED, REASONS, SLOWEST
from .texts import cut

Kind = TypeVar("Kind", bound=Hashable)
Item = TypeVar("Item")


class Firsts(Generic[Kind, Item]):
    """The first items of each kind."""

    def __init__(self) -> None:
        self._of: Dict[Kind, List[Item]] = {}

    def wants(self, kind: Kind) -> bool:
        """Whether there is room for one more of this kind."""
        return len(self._of.get(kind, ())) < LISTED

    def add(self, kind: Kind, item: Item) -> None:
        if self.wants(kind):
            self._of.setdefault(kind, []).append(item)

    def of(self, kind: Kind) -> Tuple[Item, ...]:
        return tuple(self._of.get(kind, ()))


@dataclass(frozen=True)
class Found:
    """A tile with what was found in it."""

    place: Place
    finding: Finding


def found_in(partition: Partition, finding: Finding) -> Found:
    """A finding with its place, for its first fault alone. A name that is very long is cut."""
    layer = None if finding.layer is None else cut(finding.layer)
    return Found(place_of(partition, finding), replace(finding, layer=layer, further=None))


def firsts_of_codes(finding: Finding, codes: Set[int]) -> Iterator[Finding]:
    """Of a tile's further faults the first one of each of these codes, as a finding of its own."""
    assert finding.further is not None
    left = set(codes)
    for it in finding.further.each() if left else ():
        if it.fault["code"] in left:
            left.remove(it.fault["code"])
            yield replace(finding, fault=it.fault, layer=it.layer, feature_id=it.feature_id, confirmed=None, further=None)
            if not left:
                return


def place_of(partition: Partition, tile: Finding | Timed) -> Place:
    return Place(partition.source, partition.zoom, tile.column, tile.row)


class Slowest:
    """The tiles that took the most of the processor's time, the slowest first. Of equal ones the first in their order are kept."""

    def __init__(self) -> None:
        self.tiles: List[Tuple[Place, Timed]] = []

    def add(self, judged: Judged) -> None:
        self.tiles += [(place_of(judged.partition, it), it) for it in judged.slowest]
        self.tiles.sort(key=lambda it: (-it[1].seconds, it[0]))
        del self.tiles[SLOWEST:]


class Unjudged:
    """The tiles that couldn't be judged, by the reasons."""

    def __init__(self) -> None:
        self.counts: Counter[Label] = Counter()
        self.firsts: Firsts[Label, Place] = Firsts()
        self.partitions: Firsts[Label, Partition] = Firsts()
        self._labels = Labels(REASONS, "no reason", "other reasons")

    def add(self, place: Place, reason: str) -> None:
        label = self._labels.of(reason)
        self.counts[label] += 1
        self.firsts.add(label, place)

    def add_partition(self, partition: Partition, reason: str) -> None:
        label = self._labels.of(reason)
        self.counts[label] += partition.tiles
        self.partitions.add(label, partition)


class FormatsFound:
    """How many tiles are of each other format, which are no tiles, and the first of them."""

    def __init__(self) -> None:
        self.counts: Counter[str] = Counter()
        self.firsts: Firsts[str, Place] = Firsts()

    def add(self, place: Place, name: str) -> None:
        self.counts[name] += 1
        self.firsts.add(name, place)


class AdviceFound:
    """How many tiles have advice of each kind, and the first of them. The journal has the first pieces of advice of a tile."""

    def __init__(self) -> None:
        self.counts: Counter[str] = Counter()
        self.firsts: Firsts[str, Tuple[Place, Dict[str, Any]]] = Firsts()

    def add(self, partition: Partition, line: Dict[str, Any]) -> None:
        """Counts what a line of the journal advises of one tile."""
        place = Place(partition.source, partition.zoom, line["column"], line["row"])
        first_of_kind = {it["kind"]: it for it in reversed(line["advice"])}
        for kind, members in first_of_kind.items():
            self.counts[kind] += 1
            self.firsts.add(kind, (place, members))
