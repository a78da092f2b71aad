"""A whole run, from the survey of the sources to the report."""
from __future__ import annotations

import datetime
import itertools
import os
import resource
import time
import uuid
from dataclasses import asdict
from typing import Any, Dict, Iterator, List, Optional, Tuple

import mvtgate

from .._files import is_named_as_tiles
from .attendance import Attendance
from .cluster import client_of
from .endings import Refused, ending_of
from .journal import FORMAT, Journal
from .mending.changes import Changes
from .mending.copy import NoCopy, copy_of, replaced
from .outputs import PAGE, REPORT, Counts, remove_outputs, write_outputs
from .page import built_page
from .progress import Progress
from .records import Extent, Finding, Partition, Place
from .report import Report, require_parts
from .report.limits import LISTED
from .schedule import Schedule
from .settings import Settings
from .since import Difference, EarlierRun, Known
from .sources import NotASource, open_source
from .summary import write_summary
from .whole_file import WholeFile
from .work import Task


# the least and the most tiles that a worker gets at a time, and how many parts a run has between them
_LEAST, _MOST, _PARTS = 4_000, 16_000, 64


def partition_of(tiles: int) -> int:
    """How many tiles a worker gets at a time of so many. Each time costs as much as to judge some hundred small ones, and where there
    are few, all workers are to have some. It is the same for each call of a run, whatever workers there are."""
    return min(_MOST, max(_LEAST, -(-tiles // _PARTS)))


# of one source that is open: its file, and the connection to it of each of several threads
_FILES_OF_SOURCE, _FILES_BESIDE = 4, 256


def _allow_files(sources: int) -> None:
    """Raises the limit of open files, as far as the system lets it, where so many sources come near it: all stay open."""
    soft, hard = resource.getrlimit(resource.RLIMIT_NOFILE)
    wanted = sources * _FILES_OF_SOURCE + _FILES_BESIDE
    if hard != resource.RLIM_INFINITY:
        wanted = min(wanted, hard)
    if soft != resource.RLIM_INFINITY and soft < wanted:
        resource.setrlimit(resource.RLIMIT_NOFILE, (wanted, hard))


class Run:
    """Surveys the sources, which takes a walk over their index, and then judges what an earlier run into the folder left."""

    def __init__(self, settings: Settings) -> None:
        require_parts()
        self.settings = settings
        _allow_files(len(settings.paths))
        self._sources = [open_source(path, settings.window) for path in settings.paths]
        self._began = time.monotonic()
        self._name = uuid.uuid4().hex
        surveys = [source.survey() for source in self._sources]
        self._extents = {(number, it.zoom): it for number, survey in enumerate(surveys) for it in survey}
        self._tiles = sum(it.tiles for it in self._extents.values())
        self._partition = settings.partition or partition_of(self._tiles)
        for source, survey in zip(self._sources, surveys):
            if not survey:
                raise NotASource(f"{source.path}: there is no tile in it")
        self._stamps = [source.stamp() for source in self._sources]
        self._copy = None if settings.mend is None else copy_of(self._sources, settings.mend)
        self._members = self._first_line(surveys)
        self._earlier = None if settings.since is None else EarlierRun(settings.since)
        if self._earlier is not None:
            self._earlier.expect(self._members)

    def _first_line(self, surveys: List[List[Extent]]) -> Dict[str, Any]:
        """What the journal says of the run. Where one of these isn't the same, another run can't go on with it."""
        return {
            "format": FORMAT,
            "version": mvtgate.version(),
            "profile": self.settings.profile,
            "advice": self.settings.has_advice,
            "all": self.settings.has_all,
            "partition": self._partition,
            "mend": None if self._copy is None else os.path.abspath(self._copy.path),
            "drop": self.settings.is_dropping,
            "since": None if self.settings.since is None else os.path.abspath(self.settings.since),
            "window": self.settings.window.members(),
            "layers": list(self.settings.layers),
            "sources": [
                {
                    "path": source.path,
                    "kind": source.kind,
                    "tiles": sum(it.tiles for it in survey),
                    "stamp": stamp,
                    "modified": source.modified(),
                    "zooms": [asdict(it) for it in survey],
                }
                for source, survey, stamp in zip(self._sources, surveys, self._stamps)
            ],
            "began": datetime.datetime.now(datetime.timezone.utc).isoformat(timespec="seconds"),
        }

    def _task_of(self, partition: Partition) -> Task:
        return Task(
            self._sources[partition.source].path,
            self._stamps[partition.source],
            self._extents[partition.source, partition.zoom],
            self.settings.profile,
            self.settings.has_advice,
            self._members["version"],
            self._name,
            self.settings.has_all,
            self._copy is not None,
            self.settings.is_dropping,
            self.settings.layers,
            self.settings.window,
        )

    def _known_of(self, partition: Partition) -> Optional[Known]:
        return None if self._earlier is None else self._earlier.known(partition)

    def _left(self, journal: Journal) -> Iterator[Partition]:
        """What is to be done."""
        for number, source in enumerate(self._sources):
            for partition in source.partitions(number, self._partition):
                yield from journal.left(partition)

    def go(self) -> Counts:
        """Does the run, and writes what was found."""
        if self._copy is not None:
            self._copy.check()
            self._copy.expect_apart(self.settings.output)
        if self.settings.is_anew:
            self._expect_no_copy()
        journal = self._journal()
        try:
            unjudged, workers = self._judge(journal)
            return self._write(journal, unjudged, workers)
        finally:
            journal.close()

    def _journal(self) -> Journal:
        """That of the folder. Where the run begins, what another one has left is removed."""
        folder = self.settings.output
        try:
            os.makedirs(folder, exist_ok=True)
        except OSError as error:
            raise ending_of(error) from None
        self._expect_folders()
        seconds = time.monotonic() - self._began
        path = os.path.join(folder, "journal.jsonl")
        return Journal(path, self._members, self.settings.is_anew, seconds, self._begin)

    def _expect_folders(self) -> None:
        """What is written at the end has to have its folder from the beginning, lest all is judged for nothing, and takes no other's place."""
        since = self.settings.since
        if since is not None and os.path.realpath(since) == os.path.realpath(self.settings.output):
            raise Refused(f"{since}: the earlier run stays, so this one needs another --output")
        for path in filter(None, (self.settings.junit, self.settings.mend)):
            folder = os.path.dirname(os.path.abspath(path))
            if not (os.path.isdir(folder) and os.access(folder, os.W_OK | os.X_OK)):
                raise Refused(f"{path}: there is no folder {folder} that can be written to")
        junit = self.settings.junit
        if junit is not None and (os.path.isdir(junit) or not os.path.basename(junit)):
            raise Refused(f"{junit}: the report is a file, and this is the name of a folder")
        if junit is not None and (is_named_as_tiles(junit) or os.path.realpath(junit) in (os.path.realpath(it.path) for it in self._sources)):
            raise Refused(f"{junit}: --junit takes the name of a report, and this is that of tiles")

    def _begin(self) -> None:
        """Before a run begins, and not where it goes on."""
        self._expect_no_copy()
        remove_outputs(self.settings.output)

    def _expect_no_copy(self) -> None:
        """Nothing is written over: where there is a copy of this name, it is this run's, or the run doesn't begin."""
        if self._copy is not None and os.path.lexists(self._copy.path):
            raise NoCopy(f"{self._copy.path} is there already; name another file for the mended tiles, or remove it")

    def _judge(self, journal: Journal) -> Tuple[List[Tuple[Partition, str]], int]:
        """Those that can't be judged, with the reasons, and how many workers there were."""
        left = self._left(journal)
        first = next(left, None)
        if first is None:
            return [], 0
        progress, attendance = Progress(self._tiles, journal.tiles), Attendance()

        def look(workers: int) -> None:
            news = attendance.news(workers)
            progress.add(0, attendance.standing(journal.faults))
            for it in news:
                progress.tell(it)

        def take(partition: Partition) -> None:
            progress.add(partition.tiles, attendance.standing(journal.faults))

        try:
            with client_of(self.settings.scheduler, self.settings.workers) as client, attendance.hearing(client):
                schedule = Schedule(client, self._task_of, journal, take, look, self._known_of)
                schedule.run(itertools.chain([first], left))
                return schedule.unjudged, schedule.most_workers
        finally:
            progress.close()

    def _difference(self, earlier: EarlierRun, journal: Journal, unjudged: List[Tuple[Partition, str]]) -> Difference:
        """What is new since the earlier run, and what isn't there any more."""
        difference = Difference(earlier, self.settings.output)
        found = ((partition, it) for partition in journal.partitions() for it in journal.judged(partition).findings)
        # (all tiles of one that no worker could judge are at one place)
        lost = ((it, Finding(*self._sources[it.source].northern(it), 0, error=reason)) for it, reason in unjudged)
        findings = ((Place(partition.source, partition.zoom, it.column, it.row), it) for partition, it in itertools.chain(found, lost))
        difference.write(findings, self._sources, LISTED, self._is_wanted)
        return difference

    def _is_wanted(self, place: Place) -> bool:
        """Whether this run judges a tile, where it is there."""
        ranges, window = self.settings.window.ranges(place.zoom), self.settings.window
        return window.has_zoom(place.zoom) and ranges.has_row(place.row) and ranges.first_column <= place.column <= ranges.last_column

    def _write(self, journal: Journal, unjudged: List[Tuple[Partition, str]], workers: int) -> Counts:
        """Writes what was found, by this call and the earlier ones."""
        for source, stamp in zip(self._sources, self._stamps):
            source.check(stamp)
        report = Report(self._members, self._sources)
        changes = None if self._copy is None else Changes(self.settings.output, journal.store)
        counts = write_outputs(self.settings, journal, unjudged, self._sources, report, changes)
        if self._copy is not None:
            self._copy.write(replaced(journal, self._sources))
        report.changes, report.opened = changes, self._sources
        if self._earlier is not None:
            report.difference = self._difference(self._earlier, journal, unjudged)
        write_summary(self.settings, self._members, counts, report, journal.seconds)
        page = built_page()
        if page is not None:
            with WholeFile(os.path.join(self.settings.output, PAGE)) as file:
                file.write(page.read_bytes().decode())
        path = os.path.join(self.settings.output, REPORT)
        report.write(path, journal.seconds, workers, page=PAGE if page else None)
        return counts
