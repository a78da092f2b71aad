"""What workers do: they judge the tiles of a partition, and confirm the faults that another worker found.

What they return depends on the tiles alone, but for times and names of workers, so doing it again does no harm.
"""
from __future__ import annotations

import functools
import heapq
import json
import sys
import time
from dataclasses import asdict, dataclass
from typing import Any, Dict, Iterator, List, Optional, Tuple, Union

import mvtgate

from .. import _library
from .._faults import fault_of_library
from .endings import Refused
from .further import Further
from .geojson import Address, point_of
from .mending.tiles import mend
from .names import Names
from .records import Extent, Finding, Judged, Partition, Timed
from .since import Known, Lookup
from .sources import NotASource, Source, SourceChanged, Stored, open_source
from .sums import Sums
from .unpack import NotUnpacked, unpacked
from .window import Window

# how many slow tiles are kept of a partition, and how many pieces of advice of a tile
_SLOWEST = 10
_MOST_ADVICE = 20
# characters of what the library said of a tile that are kept, where its bytes may serve several places of a partition
_LONGEST_KEPT = 1000
# bytes of mended tiles that a call returns; where there are more, the partition goes on in parts
_MOST_MENDED = 32 << 20


class UnfitWorker(Refused):
    """A worker with another version of this package than the run's, or without a part of it."""


class TooManyMended(Exception):
    """More bytes of mended tiles than a call returns, in a partition of several tiles."""


@dataclass(frozen=True)
class Task:
    """What a worker has to know beside the partition."""

    path: str
    stamp: Dict[str, Any]
    extent: Extent
    profile: str
    advice: bool
    version: str
    # (a worker may outlive a run: what it opened for one isn't taken for another)
    run: str = ""
    has_all: bool = False
    is_mending: bool = False
    is_dropping: bool = False
    layers: Tuple[str, ...] = ()
    window: Window = Window()

    @property
    def of_profile(self) -> mvtgate.Profile:
        return mvtgate.Profile[self.profile.upper()]

    def source(self) -> Source:
        """The source, opened. SourceChanged where it isn't that of the run, UnfitWorker where this worker isn't."""
        if mvtgate.version() != self.version:
            raise UnfitWorker(f"worker {_worker_name()} has mvtgate {mvtgate.version()}, and the run {self.version}")
        try:
            source = _opened(self.path, self.run, self.window)
        except NotASource as error:
            raise SourceChanged(f"worker {_worker_name()}: {error}") from None
        self.check(source)
        return source

    def check(self, source: Source) -> None:
        """SourceChanged where it isn't that of the run."""
        try:
            source.check(self.stamp)
        except SourceChanged as error:
            raise SourceChanged(f"worker {_worker_name()}: {error}") from None


@functools.lru_cache(maxsize=16)
def _opened(path: str, _run: str, window: Window) -> Source:
    return open_source(path, window)


def _worker_name() -> str:
    """The address of this worker, which no other one has."""
    # (without Dask, where nobody has loaded it)
    distributed: Any = sys.modules.get("distributed")
    try:
        return str(distributed.get_worker().address) if distributed else "this process"
    except ValueError:
        return "this process"


class _Judging:
    """One partition while it is judged."""

    def __init__(self, task: Task, partition: Partition, known: Optional[Known]) -> None:
        self._task = task
        self._earlier = None if known is None else Lookup(known)
        self._sums = Sums()
        self._profile = task.of_profile
        self._slowest: List[Tuple[float, int, int, int]] = []
        self._cells: Dict[Tuple[int, int], int] = {}
        self.judged = Judged(partition, _worker_name())
        self.count = 0
        self._mended = 0
        # what was said of bytes that may be stored once for several places
        self._said: Dict[Tuple[int, int], Optional[str]] = {}

    def add(self, stored: Stored) -> None:
        """Judges one tile."""
        self.count += 1
        cell = self._task.extent.cell(stored.column, stored.row)
        self._cells[cell] = self._cells.get(cell, 0) + 1
        self.judged.packed += stored.size
        if self._is_reused(stored):
            return
        try:
            if stored.error is not None:
                raise NotUnpacked(stored.error)
            self._judge(stored, unpacked(stored.data))
        except NotUnpacked as error:
            self._fail(stored, str(error))
        except MemoryError:
            self._fail(stored, "memory was refused")

    def _is_reused(self, stored: Stored) -> bool:
        """Takes what an earlier run found in a tile with these bytes."""
        own_sum = self._sums.add(stored.column, stored.row, stored.data)
        tile = stored.column, stored.row
        if self._earlier is None or stored.error is not None or not self._earlier.is_same(tile, own_sum):
            return False
        finding, advice = self._earlier.finding(tile), self._earlier.advice(tile)
        # (what has to be mended is mended by this run)
        if finding is not None and self._task.is_mending:
            return False
        self.judged.findings += [] if finding is None else [finding]
        self.judged.advice += [] if advice is None else [advice]
        self.judged.reused += 1
        return True

    def _judge(self, stored: Stored, tile: bytes) -> None:
        began = time.thread_time_ns()
        told = self._told(stored, tile)
        seconds = (time.thread_time_ns() - began) / 1e9
        self.judged.unpacked += len(tile)
        keep = heapq.heappush if len(self._slowest) < _SLOWEST else heapq.heappushpop
        keep(self._slowest, (seconds, stored.column, stored.row, len(tile)))
        # (first, since memory may be refused, and a tile has one finding)
        if self._task.advice:
            self._advise(stored, tile)
        if told:
            self._find(stored, tile, self._wanted(tile, _library.lines_of(told)), seconds)

    def _told(self, stored: Stored, tile: bytes) -> Optional[str]:
        """What the library says of a tile. Of bytes that are stored once for several places it is asked once."""
        if stored.content is not None and stored.content in self._said:
            return self._said[stored.content]
        has_all = self._task.has_all or bool(self._task.layers)
        # (quickly, so that no tile holds a worker for long)
        told = _library.faults(self._profile, tile, True) if has_all else _library.check(self._profile, tile, True)
        if stored.content is not None and len(told or "") <= _LONGEST_KEPT:
            self._said[stored.content] = told
        return told

    def _wanted(self, tile: bytes, lines: Iterator[str]) -> Iterator[str]:
        """The faults of the layers that are asked for, and those of bytes that are no tile."""
        if not self._task.layers:
            return lines
        names = Names(tile)
        return (it for it in lines if names.subject_of(fault_of_library(it)).layer in (None, *self._task.layers))

    def _find(self, stored: Stored, tile: bytes, lines: Iterator[str], seconds: float) -> None:
        first = next(lines, None)
        if first is None:
            return
        fault = fault_of_library(first)
        address = Address(self.judged.partition.zoom, stored.column, stored.row)
        subject = Names(tile).subject_of(fault)
        other = mvtgate.format_of(fault, tile)
        finding = Finding(stored.column, stored.row, len(tile), seconds, fault=fault.members)
        finding.layer, finding.feature_id, finding.point = subject.layer, subject.feature_id, point_of(fault.members, address, subject)
        finding.format = None if other is None else other.name
        finding.further = Further.of_lines(tile, lines, address) if self._task.has_all else None
        if self._task.is_mending:
            self._mend(stored, tile, finding, address)
        self.judged.findings.append(finding)

    def _mend(self, stored: Stored, tile: bytes, finding: Finding, address: Address) -> None:
        finding.mending, payload = mend(self._profile, self._task.is_dropping, address, stored.data, tile)
        if not finding.mending.is_mended:
            return
        self.judged.payloads.append(payload)
        self._mended += len(payload)
        if self._mended > _MOST_MENDED and self.judged.partition.tiles > 1:
            raise TooManyMended(f"mended tiles have more than {_MOST_MENDED} bytes")

    def _advise(self, stored: Stored, tile: bytes) -> None:
        try:
            advice = mvtgate.advise(tile)
        except mvtgate.NotATile:
            return
        if advice:
            members = [{key: it for key, it in asdict(one).items() if it is not None} for one in advice[:_MOST_ADVICE]]
            self.judged.advice.append({"column": stored.column, "row": stored.row, "count": len(advice), "advice": members})

    def _fail(self, stored: Stored, reason: str) -> None:
        self.judged.findings.append(Finding(stored.column, stored.row, stored.size, error=reason))

    def end(self) -> Judged:
        """All that was found."""
        self.judged.cells = [(*cell, tiles) for cell, tiles in sorted(self._cells.items())]
        self.judged.block = self._sums.packed()
        self.judged.slowest = [Timed(*it) for it in sorted(self._slowest, reverse=True)]
        return self.judged


def judge(task: Task, partition: Partition, known: Optional[Known] = None) -> Union[Judged, TooManyMended]:
    """Judges all tiles of a partition, but for those of which an earlier run knows. SourceChanged where there are more or fewer than
    there were. TooManyMended is returned: what is raised would be tried again."""
    source = task.source()
    judging = _Judging(task, partition, known)
    began = time.thread_time_ns()
    try:
        for stored in source.tiles(partition):
            judging.add(stored)
    except TooManyMended as error:
        return error
    judging.judged.seconds = (time.thread_time_ns() - began) / 1e9
    task.check(source)
    if judging.count != partition.tiles:
        raise SourceChanged(f"{task.path} has {judging.count} tiles where it had {partition.tiles} when the run began")
    return judging.end()


def confirm(task: Task, judged: Judged) -> Tuple[str, List[bool]]:
    """The name of this worker, and for each fault of a partition that isn't confirmed whether the checker confirms it."""
    source = task.source()
    answers = [_is_confirmed(source, task, judged.partition.zoom, it) for it in judged.unconfirmed]
    task.check(source)
    return _worker_name(), answers


def _is_confirmed(source: Source, task: Task, zoom: int, finding: Finding) -> bool:
    text = json.dumps(finding.fault, separators=(",", ":"), sort_keys=True)
    for stored in source.at(zoom, finding.column, finding.row):
        tile = _unpacked_or_none(stored)
        if tile is not None and mvtgate.confirm(tile, text, task.of_profile):
            return True
    return False


def _unpacked_or_none(stored: bytes) -> Optional[bytes]:
    try:
        return unpacked(stored)
    except NotUnpacked:
        return None
