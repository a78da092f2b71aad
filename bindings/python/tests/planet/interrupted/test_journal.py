"""The journal by itself: what is on the disk and when, what a run that goes on finds in it, and how long its lines get."""
from __future__ import annotations

import json
import os
import pathlib
from typing import Any, Dict, List

import pytest

import mvtgate
from conftest import varint
from mvtgate import Advice, Fault
from mvtgate.planet.journal import FORMAT, Journal, JournalError, NotWritten
from mvtgate.planet.records import Extent, Finding, Judged, Partition
from mvtgate.planet.sources import open_source
from mvtgate.planet.work import Task, judge
from planet.helpers.runs import VALID, Tile, write_database

RUN: Dict[str, Any] = {"format": FORMAT, "version": "0", "sources": [], "began": "now"}
WHOLE = Partition(0, 3, (0, 0), (7, 7), 64)
PARTS = [Partition(0, 3, (column, 0), (column, 7), 8) for column in range(8)]
SINGLES = [Partition(0, 3, (5, row), (5, row), 1) for row in range(8)]


def opened(folder: pathlib.Path, **other: Any) -> Journal:
    return Journal(str(folder / "journal.jsonl"), {**RUN, **other})


def test_first_line_and_what_goes_on(tmp_path: pathlib.Path) -> None:
    opened(tmp_path).close()
    run = {**RUN, "began": "later"}
    journal = Journal(str(tmp_path / "journal.jsonl"), run)
    assert run["began"] == "now" and journal.tiles == 0 and journal.partitions() == []
    journal.close()
    assert [json.loads(line) for line in (tmp_path / "journal.jsonl").read_text().splitlines()] == [{"run": RUN}]
    with pytest.raises(JournalError, match="version not the same"):
        opened(tmp_path, version="1")


def test_clock_of_all_calls(tmp_path: pathlib.Path) -> None:
    """What earlier calls took counts up to what they did last, however they ended."""
    path = str(tmp_path / "journal.jsonl")
    first = Journal(path, RUN, seconds=1000.0)
    first.add(Judged(PARTS[0], "a"))
    first.close()
    second = Journal(path, RUN, seconds=200.0)
    assert 1200 <= second.seconds < 1900
    second.split(PARTS[1], SINGLES)
    second.close()
    # (it ended before it did anything)
    Journal(path, RUN, seconds=70.0).close()
    fourth = Journal(path, RUN, seconds=5.0)
    assert 1205 <= fourth.seconds < 1265
    fourth.close()
    anew = Journal(path, RUN, is_anew=True, seconds=2.0)
    assert 2 <= anew.seconds < 60
    anew.close()


def test_what_begins(tmp_path: pathlib.Path) -> None:
    """It is told before the first line of a run, and not where a run goes on."""
    path, seen = tmp_path / "journal.jsonl", list[bytes]()

    def begin() -> None:
        seen.append(path.read_bytes())

    for is_anew, times in ((False, 1), (False, 1), (True, 2), (False, 2)):
        Journal(str(path), RUN, is_anew, on_begin=begin).close()
        assert seen == [b""] * times


def test_faults_are_counted(tmp_path: pathlib.Path) -> None:
    fault = Finding(3, 4, 5, fault={"code": 201, "layer": 0})
    journal = opened(tmp_path)
    journal.add(Judged(PARTS[0], "a", findings=[fault, Finding(3, 5, 0, error="NULL")]))
    journal.add(Judged(PARTS[1], "a", findings=[fault, fault]))
    assert journal.faults == 3
    journal.close()
    journal = opened(tmp_path)
    assert journal.faults == 3
    journal.close()


def test_parts_of_parts(tmp_path: pathlib.Path) -> None:
    """A later run knows them, in whichever order they were done."""
    journal = opened(tmp_path)
    journal.split(WHOLE, PARTS)
    journal.add(Judged(PARTS[7], "a"))
    journal.split(PARTS[5], SINGLES)
    for it in (SINGLES[3], PARTS[0], SINGLES[0]):
        journal.add(Judged(it, "a"))
    left = [*PARTS[1:5], *SINGLES[1:3], *SINGLES[4:], PARTS[6]]
    assert list(journal.left(WHOLE)) == left
    journal.close()
    journal = opened(tmp_path)
    assert list(journal.left(WHOLE)) == left
    assert journal.partitions() == [PARTS[0], SINGLES[0], SINGLES[3], PARTS[7]]
    assert journal.tiles == 8 + 1 + 1 + 8
    for it in left:
        journal.add(Judged(it, "b"))
    assert list(journal.left(WHOLE)) == [] and journal.tiles == 64
    journal.close()


def test_what_was_found_comes_back(tmp_path: pathlib.Path) -> None:
    fault = {"code": 201, "layer": 0}
    findings = [Finding(3, 4, 5, 0.25, fault=fault, layer="ä\u2028\n", feature_id=2**64 - 1, confirmed=True), Finding(3, 5, 0, error="NULL")]
    judged = Judged(PARTS[3], "a", 10, 20, 0.5, [(0, 0, 8)], findings, [{"column": 3, "count": 1}], [], "b")
    journal = opened(tmp_path)
    journal.add(Judged(PARTS[4], "a"))
    journal.add(judged)
    assert journal.judged(PARTS[3]) == judged
    journal.close()
    journal = opened(tmp_path)
    assert journal.judged(PARTS[3]) == judged
    journal.close()
    assert len((tmp_path / "journal.jsonl").read_bytes().splitlines()) == 3


class Early:
    """A file whose writes end early, and fail after so many bytes."""

    def __init__(self, file: Any, room: int) -> None:
        self._file, self._room = file, room
        self.fileno, self.close = file.fileno, file.close

    def write(self, data: Any) -> int:
        if self._room == 0:
            raise OSError(28, "No space left on device")
        count: int = self._file.write(bytes(data[: min(7, self._room)]))
        self._room -= count
        return count


def test_writes_that_end_early(tmp_path: pathlib.Path) -> None:
    journal = opened(tmp_path)
    setattr(journal, "_file", Early(getattr(journal, "_file"), 10**6))
    for it in PARTS:
        journal.add(Judged(it, "a"))
    journal.close()
    journal = opened(tmp_path)
    assert journal.partitions() == PARTS
    journal.close()


@pytest.mark.parametrize("room", [0, 1, 7, 100])
def test_no_room(tmp_path: pathlib.Path, room: int) -> None:
    """What is written of a line is cut off by the next run."""
    journal = opened(tmp_path)
    journal.add(Judged(PARTS[0], "a"))
    before = (tmp_path / "journal.jsonl").read_bytes()
    setattr(journal, "_file", Early(getattr(journal, "_file"), room))
    with pytest.raises(NotWritten, match="No space left on device; what was written before stands"):
        journal.add(Judged(PARTS[1], "a"))
    assert journal.partitions() == [PARTS[0]]
    journal.close()
    assert len((tmp_path / "journal.jsonl").read_bytes()) == len(before) + room
    journal = opened(tmp_path)
    assert (tmp_path / "journal.jsonl").read_bytes() == before
    journal.close()


def test_on_the_disk_before_it_counts(tmp_path: pathlib.Path, monkeypatch: pytest.MonkeyPatch) -> None:
    """The whole line is written when fsync is called, and the partition is done when that has returned."""
    journal = opened(tmp_path)
    seen: List[str] = []
    sync = os.fsync

    def fsync(file: int) -> None:
        last = (tmp_path / "journal.jsonl").read_text()
        assert last.endswith("\n") and journal.partitions() == []
        seen.append(last.splitlines()[-1])
        sync(file)

    monkeypatch.setattr(os, "fsync", fsync)
    journal.add(Judged(PARTS[0], "a"))
    assert len(seen) == 1 and Judged.of(json.loads(seen[0])["judged"]) == Judged(PARTS[0], "a")
    assert journal.partitions() == [PARTS[0]]

    def fail(file: int) -> None:
        raise OSError(5, "Input/output error")

    monkeypatch.setattr(os, "fsync", fail)
    with pytest.raises(NotWritten, match="Input/output error"):
        journal.add(Judged(PARTS[1], "a"))
    assert journal.partitions() == [PARTS[0]]
    journal.close()


def judged_line(folder: pathlib.Path, tiles: List[Tile], advice: bool = False) -> Dict[str, Any]:
    """The journal's line of all these tiles, which are at one zoom, judged in this process."""
    path = write_database(folder / "tiles.mbtiles", tiles)
    source = open_source(str(path))
    [extent] = source.survey()
    [partition] = source.partitions(0, len(tiles))
    judged = judge(Task(str(path), source.stamp(), extent, "polygon", advice, mvtgate.version()), partition)
    assert isinstance(judged, Judged)
    journal = opened(folder)
    journal.add(judged)
    journal.close()
    line = (folder / "journal.jsonl").read_bytes().splitlines()[-1]
    return {"length": len(line), **json.loads(line)["judged"]}


def layer(name: bytes, more: bytes) -> bytes:
    payload = b"\x78\x02\x0a" + varint(len(name)) + name + more
    return b"\x1a" + varint(len(payload)) + payload


def test_length_of_lines(tmp_path: pathlib.Path, monkeypatch: pytest.MonkeyPatch) -> None:
    """Some hundred bytes for a fault, however long the names are."""
    fault = Fault.from_text('{"code":502,"feature":0,"layer":0,"ring":0}')
    monkeypatch.setattr(mvtgate, "check", lambda *_: fault)
    tile = layer(b"n" * 2000, b"\x12\x02\x08\x07")
    made = judged_line(tmp_path, [Tile(6, at >> 6, at % 64, tile) for at in range(4000)])
    assert len(made["findings"]) == 4000 and made["length"] < 4000 * 600
    assert made["findings"][0]["layer"] == "n" * 200 + "…" and made["findings"][0]["feature_id"] == 7


def test_name_of_60_mib(tmp_path: pathlib.Path, monkeypatch: pytest.MonkeyPatch) -> None:
    fault = Fault.from_text('{"code":502,"feature":0,"layer":0,"ring":0}')
    monkeypatch.setattr(mvtgate, "check", lambda *_: fault)
    made = judged_line(tmp_path, [Tile(0, 0, 0, layer(b"n" * (60 << 20), b"\x12\x02\x08\x07"))])
    assert made["length"] < 2000 and made["findings"][0]["feature_id"] == 7


def test_a_million_pieces_of_advice(tmp_path: pathlib.Path, monkeypatch: pytest.MonkeyPatch) -> None:
    monkeypatch.setattr(mvtgate, "advise", lambda *_: [Advice("equal_id", 0, 0, 1)] * 1_000_000)
    made = judged_line(tmp_path, [Tile(0, 0, 0, VALID)], advice=True)
    [told] = made["advice"]
    assert told["count"] == 1_000_000 and len(told["advice"]) == 20 and made["length"] < 3000


def test_advice_on_equal_ids(tmp_path: pathlib.Path) -> None:
    """By the library itself: each feature of the same id but for the first."""
    made = judged_line(tmp_path, [Tile(0, 0, 0, layer(b"a", b"\x12\x09\x08\x07\x18\x01\x22\x03\x09\x32\x22" * 20_000))], advice=True)
    [told] = made["advice"]
    assert told["count"] == 19_999 and told["advice"][19] == {"kind": "equal_id", "layer": 0, "first": 0, "second": 20}
    assert made["length"] < 3000


def test_extents_and_cells() -> None:
    """A map has at most 256 cells in a row or column, whatever the zoom."""
    for tiles in (1, 255, 256, 257, 512, 513, 1 << 22):
        extent = Extent(22, tiles, 100, 100 + tiles - 1, 7, 7)
        assert extent.cell(100, 7) == (0, 0)
        assert 128 <= extent.cell(100 + tiles - 1, 7)[0] < 256 or tiles < 256
