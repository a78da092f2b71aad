"""Collects what a run found, and writes the report of it."""
from __future__ import annotations

import os
from collections import Counter
from dataclasses import dataclass
from typing import Any, Dict, Optional, Sequence, Union

import mvtgate

from ..further import OneFault
from ..mending.changes import Changes
from ..records import Finding, Judged, Partition, Place
from ..since import Difference
from ..sources import Source
from ..rows import Rows
from ..whole_file import WholeFile
from .counts import CountsByCode, Labels
from .firsts import AdviceFound, Firsts, FormatsFound, Found, Slowest, Unjudged, firsts_of_codes, found_in, place_of
from .html import written
from .limits import LAYERS
from .listing import Listing
from .pictures import Dump, Pictures, SourceLike
from .tile_map import TileMap


@dataclass
class Totals:
    """Sums over all partitions."""

    tiles: int = 0
    faulty: int = 0
    faults: int = 0
    unjudged: int = 0
    reused: int = 0
    packed: int = 0
    unpacked: int = 0
    seconds: float = 0.0
    confirmed: int = 0
    refuted: int = 0

    @property
    def valid(self) -> int:
        return self.tiles - self.faulty - self.unjudged

    @property
    def unasked(self) -> int:
        """Faults of which the checker wasn't asked."""
        return self.faulty - self.confirmed - self.refuted


@dataclass(frozen=True)
class Duration:
    """How long a run took, with all its calls, and how many workers the last one had."""

    seconds: float
    workers: int


class Report:
    """The report of a run. What it keeps is bounded, however many tiles there are.

    `run` is what the journal's first line has of the run, and `sources` are the opened sources, in the order in which it names
    them. `add` is called for each partition in the order of the tiles, and `add_unjudged` for one that no worker could judge.
    """

    def __init__(self, run: Dict[str, Any], sources: Sequence[SourceLike], dump: Dump = mvtgate.dump) -> None:
        self.run = run
        self.sources = sources
        self.totals = Totals()
        layers = Labels(LAYERS, "no layer", "other layers")
        self.counts = CountsByCode(layers)
        self.all_counts = CountsByCode(layers)
        self.firsts: Firsts[int, Found] = Firsts()
        self.formats = FormatsFound()
        self.map = TileMap(run["sources"])
        self.slowest = Slowest()
        self.unjudged = Unjudged()
        self.advice = AdviceFound()
        self.rows = Rows()
        self.listing = Listing()
        # (what was changed, where tiles are mended, and the sources to read them from)
        self.changes: Optional[Changes] = None
        self.opened: Sequence[Source] = ()
        # (what is new and what isn't there any more, where there is an earlier run)
        self.difference: Optional[Difference] = None
        self._dump = dump

    @property
    def has_all(self) -> bool:
        """Whether all faults of a tile were asked for. `counts` has tiles by their first faults, and `all_counts` all faults."""
        return bool(self.run.get("all"))

    def add(self, judged: Judged) -> None:
        """Takes in what was found in a partition."""
        self.totals.tiles += judged.partition.tiles
        self.totals.packed += judged.packed
        self.totals.reused += judged.reused
        self.totals.unpacked += judged.unpacked
        self.totals.seconds += judged.seconds
        self.map.add(judged)
        self.slowest.add(judged)
        faults = Counter((it.fault["code"], it.layer) for it in judged.findings if it.fault is not None)
        for (code, layer), tiles in faults.items():
            self.counts.add(code, layer, tiles)
        for it in judged.findings:
            self._add_finding(judged.partition, it)
            if self.has_all and it.fault is not None:
                self._add_all(judged.partition, it)
        for line in judged.advice:
            self.advice.add(judged.partition, line)

    def _add_finding(self, partition: Partition, finding: Finding) -> None:
        if finding.fault is None:
            self.totals.unjudged += 1
            self.unjudged.add(place_of(partition, finding), finding.error or "")
            return
        code = finding.fault["code"]
        self.totals.faulty += 1
        self.totals.confirmed += finding.confirmed is True
        self.totals.refuted += finding.confirmed is False
        if self.firsts.wants(code):
            self.firsts.add(code, found_in(partition, finding))
        if finding.format is not None:
            self.formats.add(place_of(partition, finding), finding.format)

    def _add_all(self, partition: Partition, finding: Finding) -> None:
        """Counts all faults of a tile, and lists it where one of them is among the first of its code."""
        assert finding.fault is not None
        self.totals.faults += finding.count
        self.all_counts.add(finding.fault["code"], finding.layer, 1)
        if finding.further is None:
            return
        for code, layer, count in finding.further.counts:
            self.all_counts.add(code, layer, count)
        wanted = {code for code, _, _ in finding.further.counts if code != finding.fault["code"] and self.firsts.wants(code)}
        for it in firsts_of_codes(finding, wanted):
            assert it.fault is not None
            self.firsts.add(it.fault["code"], found_in(partition, it))

    def add_unjudged(self, partition: Partition, reason: str) -> None:
        """Takes in a partition that wasn't judged."""
        self.totals.tiles += partition.tiles
        self.totals.unjudged += partition.tiles
        self.map.add_unjudged(partition)
        self.unjudged.add_partition(partition, reason)

    def add_fault(self, place: Place, fault: OneFault) -> None:
        """Takes in a fault for the list of all, and the rows of the data."""
        self.listing.add(place, fault)
        self.rows.add(place, fault.layer, fault.feature_id, fault.fault["code"])

    def write(
        self, path: Union[str, os.PathLike[str]], seconds: float, workers: int, page: Optional[str] = "page.html"
    ) -> None:
        """Writes the file, whole or not at all.

        `seconds` is the time by the clock in which all tiles were judged. `page` is the address of the page that opens tiles; None
        makes no links. ReportPartsMissing where the script or the style is nowhere.
        """
        text = written(self, Pictures(self.sources, self._dump), Duration(seconds, workers), page)
        with WholeFile(os.fspath(path)) as file:
            file.write(text)
