"""An earlier run: what it found in tiles whose bytes are the same now, and what is new, mended and still there."""
from __future__ import annotations

import fcntl
import json
import os
from collections import Counter
from dataclasses import dataclass, field
from typing import Any, Callable, Dict, Iterator, List, Mapping, Optional, Sequence, Tuple

from .endings import Refused, ending_of
from .geojson import Address
from .records import Finding, Judged, Partition, Place
from .sources import Source
from .store import Store
from .sums import Tile, sums_in
from .temporary import Temporary
from .whole_file import WholeFile

SINCE = "since.jsonl"
# what has to be the same in both runs, so that one could have found what the other did
_SAME = ("format", "version", "profile", "all", "advice", "layers")
_json_of = json.JSONEncoder(ensure_ascii=False).encode


class NoEarlierRun(Refused):
    """A folder that holds no run, or one with which this one can't be compared."""


@dataclass(frozen=True)
class Known:
    """What a worker is told of the tiles of an earlier run: their sums, in blocks, and what was found in some of them."""

    blocks: List[bytes] = field(default_factory=list)
    findings: List[Dict[str, Any]] = field(default_factory=list)
    advice: List[Dict[str, Any]] = field(default_factory=list)


class Lookup:
    """The same, to be asked for a tile."""

    def __init__(self, known: Known) -> None:
        self._sums = sums_in(known.blocks)
        self._findings: Dict[Tile, Finding] = {(it["column"], it["row"]): Finding.of(it) for it in known.findings}
        self._advice = {(it["column"], it["row"]): it for it in known.advice}

    def is_same(self, tile: Tile, wanted: bytes) -> bool:
        """Whether it has the bytes that it had, and was judged then."""
        finding = self._findings.get(tile)
        return self._sums.get(tile) == wanted and (finding is None or finding.fault is not None)

    def finding(self, tile: Tile) -> Optional[Finding]:
        return self._findings.get(tile)

    def advice(self, tile: Tile) -> Optional[Dict[str, Any]]:
        return self._advice.get(tile)


def _by_ids(run: Mapping[str, Any]) -> List[bool]:
    """Of which sources the partitions are ranges of ids, and not of columns."""
    return [it["kind"] == "pmtiles" for it in run["sources"]]


def _overlap(one: Partition, other: Partition, is_by_ids: bool) -> bool:
    """Whether they have a column in common, or an id."""
    at = 1 if is_by_ids else 0
    return one.first[at] <= other.last[at] and other.first[at] <= one.last[at]


class EarlierRun:
    """A run that isn't under way any more. Its lines stay in its journal, of which the places are kept."""

    def __init__(self, folder: str) -> None:
        self.folder = folder
        self._path = os.path.join(folder, "journal.jsonl")
        self._done: Dict[Tuple[int, int], List[Tuple[Partition, int]]] = {}
        self._stored = 0
        try:
            self._file = open(self._path, "rb")
            fcntl.flock(self._file, fcntl.LOCK_SH | fcntl.LOCK_NB)
        except BlockingIOError:
            raise NoEarlierRun(f"{folder}: a run is writing to it") from None
        except FileNotFoundError:
            raise NoEarlierRun(f"{folder}: there is no run in it") from None
        except OSError as error:
            raise ending_of(error, self._path) from None
        self.run = self._read()
        self._is_by_ids = _by_ids(self.run)
        self._store = Store(os.path.join(folder, "journal.bin"), is_read=True)
        if self._store.end < self._stored:
            raise NoEarlierRun(f"{self._store.path} has {self._store.end} bytes where the journal says {self._stored}")

    def _read(self) -> Dict[str, Any]:
        """The first line, and where the others are."""
        run: Dict[str, Any] = {}
        at = 0
        try:
            for line in self._file:
                if not line.endswith(b"\n"):
                    break
                members = json.loads(line)
                if at == 0:
                    run = dict(members["run"])
                elif "judged" in members:
                    partition = Partition.of(members["judged"]["partition"])
                    self._done.setdefault((partition.source, partition.zoom), []).append((partition, at))
                    self._stored = int(members.get("stored", 0))
                at += len(line)
        except (ValueError, LookupError, TypeError, RecursionError):
            raise NoEarlierRun(f"{self._path}: at byte {at} is no line of a journal") from None
        if not run:
            raise NoEarlierRun(f"{self.folder}: there is no run in it")
        return run

    def expect(self, run: Mapping[str, Any]) -> None:
        """NoEarlierRun where a run can't be compared with it."""
        different = [key for key in _SAME if self.run.get(key) != run.get(key)]
        if len(self.run["sources"]) != len(run["sources"]):
            different.append("number of sources")
        elif _by_ids(self.run) != _by_ids(run):
            different.append("kind of sources")
        if different:
            raise NoEarlierRun(f"{self.folder}: a run can't go by it with other words or another version ({', '.join(different)} not the same)")

    def _judged(self, at: int) -> Judged:
        self._file.seek(at)
        return Judged.of(json.loads(self._file.readline())["judged"])

    def known(self, partition: Partition) -> Known:
        """What it knows of the columns of a partition."""
        known = Known()
        for it, at in self._done.get((partition.source, partition.zoom), ()):
            if _overlap(it, partition, self._is_by_ids[partition.source]):
                judged = self._judged(at)
                known.blocks.append(self._store.read(*judged.sums))
                # (what that run mended stays in the tile that this one looks at)
                known.findings.extend({**finding.members(), "mending": None} for finding in judged.findings)
                known.advice.extend(judged.advice)
        return known

    def faults(self) -> Iterator[Tuple[Place, Finding]]:
        """Its tiles with a fault."""
        for (source, zoom), done in self._done.items():
            for _, at in done:
                for it in self._judged(at).faults:
                    yield Place(source, zoom, it.column, it.row), it

    def close(self) -> None:
        self._store.close()
        self._file.close()


_TABLE = """
    CREATE TABLE earlier (source INTEGER, zoom INTEGER, column INTEGER, row INTEGER, code INTEGER, layer TEXT, id TEXT,
        PRIMARY KEY (source, zoom, column, row)) WITHOUT ROWID"""
_AT = "source = ? AND zoom = ? AND column = ? AND row = ?"

# a fault's code, layer and feature's id
_About = Tuple[int, Optional[str], Optional[int]]


class Difference:
    """Which tiles have a fault since the earlier run, which have none any more or are gone, and which still have one. Of a tile that had
    one and couldn't be judged none of that is known: it is `unjudged`."""

    def __init__(self, earlier: EarlierRun, folder: str) -> None:
        self.counts: Counter[str] = Counter({"new": 0, "still": 0, "mended": 0, "gone": 0, "unjudged": 0})
        self.firsts: Dict[str, List[Dict[str, Any]]] = {it: [] for it in self.counts}
        self.folder = earlier.folder
        self._path = os.path.join(folder, SINCE)
        self._database = Temporary(_TABLE)
        for place, it in earlier.faults():
            identity = None if it.feature_id is None else str(it.feature_id)
            assert it.fault is not None
            row = (place.source, place.zoom, place.column, place.row, it.fault["code"], it.layer, identity)
            self._database.execute("INSERT OR IGNORE INTO earlier VALUES (?, ?, ?, ?, ?, ?, ?)", row)

    def write(self, findings: Iterator[Tuple[Place, Finding]], sources: Sequence[Source], most: int, windowed: Callable[[Place], bool]) -> None:
        """Writes since.jsonl: the tiles with a fault in their order, and then those that have none any more."""
        with WholeFile(self._path) as file:
            for place, it in findings:
                was = self._taken(place)
                if it.fault is not None:
                    self._add(file, "still" if was else "new", place, sources, (it.fault["code"], it.layer, it.feature_id), most)
                elif was is not None:
                    self._add(file, "unjudged", place, sources, was, most)
            left = self._database.execute("SELECT * FROM earlier ORDER BY source, zoom, column, row")
            for source, zoom, column, row, *about in left:
                place = Place(source, zoom, column, row)
                if windowed(place):
                    what = "mended" if sources[source].tile(zoom, column, row) is not None else "gone"
                    self._add(file, what, place, sources, _about(*about), most)
        self._database.close()

    def _taken(self, place: Place) -> Optional[_About]:
        """The fault that the earlier run found there, which is asked for once."""
        words = (place.source, place.zoom, place.column, place.row)
        found = self._database.execute(f"SELECT code, layer, id FROM earlier WHERE {_AT}", words).fetchone()
        self._database.execute(f"DELETE FROM earlier WHERE {_AT}", words)
        return None if found is None else _about(*found)

    def _add(self, file: WholeFile, what: str, place: Place, sources: Sequence[Source], about: _About, most: int) -> None:
        code, layer, identity = about
        tile = Address(place.zoom, place.column, place.row).text
        line = {"what": what, "tile": tile, "zoom": place.zoom, "column": place.column, "row": place.row}
        line.update(source=sources[place.source].path, code=code, layer=layer, feature_id=identity)
        file.write(f"{_json_of(line)}\n")
        self.counts[what] += 1
        if len(self.firsts[what]) < most:
            self.firsts[what].append(line)


def _about(code: int, layer: Optional[str], identity: Optional[str]) -> _About:
    """That of a row of the table."""
    return code, layer, None if identity is None else int(identity)
