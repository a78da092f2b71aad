"""What a run leaves: faults.jsonl, advice.jsonl, report.html with its page, and the counts of its last line."""
from __future__ import annotations

import contextlib
import json
import os
from dataclasses import dataclass
from typing import Any, Dict, Iterator, List, Optional, Protocol, Sequence, Tuple

from .. import _words
from .further import OneFault
from .geojson import BETWEEN, HEAD, TAIL, Address, feature_text
from .journal import Journal
from .mending.changes import CHANGES, Changes
from .records import Finding, Judged, Partition, Place
from .rows import ROWS, Rows
from .settings import Settings
from .since import SINCE
from .sources import Source
from .whole_file import WholeFile

FAULTS, ADVICE, REPORT, PAGE = "faults.jsonl", "advice.jsonl", "report.html", "page.html"
GEOJSON, SUMMARY = "faults.geojson", "summary.json"

# (`json.dumps` makes a coder for each line where it isn't told the usual)
_json_of = json.JSONEncoder(ensure_ascii=False).encode


class Report(Protocol):
    """What is reported of each partition, in the order of the tiles."""

    rows: Rows

    def add(self, judged: Judged) -> None:
        """A partition that is done."""

    def add_unjudged(self, partition: Partition, reason: str) -> None:
        """A partition that no worker could judge."""

    def add_fault(self, place: Place, fault: OneFault) -> None:
        """A fault of a tile of a partition that is done."""


@dataclass
class Counts:
    """Of all tiles, and of all faults that were asked for. `unconfirmed` are tiles whose first fault the checker didn't confirm, and
    `mended` those with a fault that were mended."""

    tiles: int = 0
    faulty: int = 0
    faults: int = 0
    failed: int = 0
    unconfirmed: int = 0
    mended: int = 0

    @property
    def valid(self) -> int:
        return self.tiles - self.faulty - self.failed

    def add(self, judged: Judged) -> None:
        """Those of a partition."""
        self.tiles += judged.partition.tiles
        for it in judged.findings:
            self.faulty += it.fault is not None
            self.faults += it.count
            self.failed += it.fault is None
            self.unconfirmed += it.fault is not None and it.confirmed is not True
            self.mended += it.is_mended

    def fail(self, partition: Partition) -> None:
        """Those of a partition that no worker could judge."""
        self.tiles += partition.tiles
        self.failed += partition.tiles


def remove_outputs(folder: str) -> None:
    """Removes what another run has left, so that nobody takes it for what this one finds."""
    for name in (FAULTS, GEOJSON, ROWS, ADVICE, REPORT, PAGE, CHANGES, SINCE, SUMMARY):
        for left in (name, f"{name}.part"):
            with contextlib.suppress(FileNotFoundError):
                os.remove(os.path.join(folder, left))


def place_of(partition: Partition, source: Source, column: int, row: int) -> Dict[str, Any]:
    """Where a tile is, as the lines have it."""
    place = Place(partition.source, partition.zoom, column, row)
    return {"source": source.path, "zoom": place.zoom, "column": column, "row": row, "tms_row": place.tms_row}


def _about(it: OneFault) -> Dict[str, Any]:
    """What a line says of a fault."""
    sentence = _words.fill(_words.words_of_fault(it.fault["code"])["sentence"], it.fault)
    return {"layer": it.layer, "feature_id": it.feature_id, "fault": it.fault, "sentence": sentence}


def line_of(partition: Partition, source: Source, it: Finding) -> Dict[str, Any]:
    """The line of a tile that isn't valid, or wasn't judged."""
    line = {**place_of(partition, source, it.column, it.row), "size": it.size}
    if it.fault is None:
        return {**line, "error": it.error}
    about = _about(OneFault(it.fault, it.layer, it.feature_id))
    faulty: Dict[str, Any] = {**line, "seconds": it.seconds, **about, "confirmed": it.confirmed}
    mended = {} if it.mending is None else {"mended": it.mending.is_mended}
    return {**faulty, **({} if it.format is None else {"format": it.format}), **mended}


def lines_of(partition: Partition, source: Source, it: Finding) -> Iterator[Dict[str, Any]]:
    """The lines of a tile where all faults are asked for: one for each, with its number and how many there are."""
    line = line_of(partition, source, it)
    if it.fault is None:
        yield line
        return
    yield {**line, "number": 0, "faults": it.count}
    for number, further in enumerate(it.further.each() if it.further else (), 1):
        yield {**line, **_about(further), "confirmed": None, "number": number, "faults": it.count}


def unjudged_line(partition: Partition, source: Source, reason: str) -> Dict[str, Any]:
    """The line of a tile that no worker could judge."""
    column, row = source.northern(partition)
    return {**place_of(partition, source, column, row), "size": None, "error": reason}


def advice_line(partition: Partition, source: Source, it: Dict[str, Any]) -> Dict[str, Any]:
    """The line of a tile with advice: how many pieces there are, and the first of them."""
    return {**place_of(partition, source, it["column"], it["row"]), "count": it["count"], "advice": it["advice"]}


def faults_of(it: Finding) -> Iterator[OneFault]:
    """All faults of a tile that are known."""
    if it.fault is not None:
        yield OneFault(it.fault, it.layer, it.feature_id, it.point)
    if it.further is not None:
        yield from it.further.each()


class _Features:
    """faults.geojson: a feature for each fault."""

    def __init__(self, settings: Settings, files: contextlib.ExitStack) -> None:
        self._file = files.enter_context(WholeFile(os.path.join(settings.output, GEOJSON)))
        self._file.write(HEAD)
        self._between = ""

    def add(self, place: Place, source: Source, it: OneFault) -> None:
        """That of a fault."""
        code = it.fault["code"]
        sentence = _words.fill(_words.words_of_fault(code)["sentence"], it.fault)
        properties = {"layer": it.layer, "feature_id": it.feature_id, "code": code, "sentence": sentence, "source": source.path}
        address = Address(place.zoom, place.column, place.row)
        self._file.write(self._between + feature_text(address, it.point, properties))
        self._between = BETWEEN

    def end(self) -> None:
        self._file.write(TAIL)


class _Lines:
    """faults.jsonl and advice.jsonl, as far as they are asked for."""

    def __init__(self, settings: Settings, files: contextlib.ExitStack) -> None:
        self._has_all = settings.has_all
        self._faults = files.enter_context(WholeFile(os.path.join(settings.output, FAULTS)))
        self._advice = files.enter_context(WholeFile(os.path.join(settings.output, ADVICE))) if settings.has_advice else None

    def add(self, judged: Judged, source: Source) -> None:
        """Those of a partition that was judged."""
        for it in judged.findings:
            lines = lines_of(judged.partition, source, it) if self._has_all else [line_of(judged.partition, source, it)]
            for line in lines:
                _write(self._faults, line)
        for one in judged.advice if self._advice is not None else ():
            _write(self._advice, advice_line(judged.partition, source, one))

    def add_unjudged(self, partition: Partition, source: Source, reason: str) -> None:
        """Those of a partition that no worker could judge."""
        # (all of its tiles are at one place)
        for _ in range(partition.tiles):
            _write(self._faults, unjudged_line(partition, source, reason))


def write_outputs(
    settings: Settings,
    journal: Journal,
    unjudged: List[Tuple[Partition, str]],
    sources: Sequence[Source],
    report: Report,
    changes: Optional[Changes] = None,
) -> Counts:
    """Writes faults.jsonl and advice.jsonl, and changes.jsonl where tiles are mended, in their order, and hands all to the report."""
    counts = Counts()
    reasons = dict(unjudged)
    with contextlib.ExitStack() as files:
        lines, features = _Lines(settings, files), _Features(settings, files)
        if changes is not None:
            files.enter_context(changes)
        for partition in sorted([*journal.partitions(), *reasons]):
            source = sources[partition.source]
            if partition in reasons:
                lines.add_unjudged(partition, source, reasons[partition])
                counts.fail(partition)
                report.add_unjudged(partition, reasons[partition])
                continue
            judged = journal.judged(partition)
            lines.add(judged, source)
            counts.add(judged)
            report.add(judged)
            for found, fault in ((it, fault) for it in judged.findings for fault in faults_of(it)):
                place = Place(partition.source, partition.zoom, found.column, found.row)
                features.add(place, source, fault)
                report.add_fault(place, fault)
            if changes is not None:
                changes.add(partition, source, judged)
        features.end()
    report.rows.write(settings.output, [it.path for it in sources])
    return counts


def _write(file: Optional[WholeFile], line: Dict[str, Any]) -> None:
    assert file is not None
    file.write(_json_of(line) + "\n")
