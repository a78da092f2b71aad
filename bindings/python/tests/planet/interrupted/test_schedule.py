"""The loop over partitions, with a client whose workers come, go and answer as a test says."""
from __future__ import annotations

import asyncio
import concurrent.futures
import json
import pathlib
import threading
from typing import Any, Callable, Dict, Generator, List, Optional, Tuple

import pytest

import mvtgate
from mvtgate.planet import schedule, work
from mvtgate.planet.geojson import Address
from mvtgate.planet.journal import FORMAT, Journal
from mvtgate.planet.mending.tiles import mend
from mvtgate.planet.records import Finding, Judged, Partition
from mvtgate.planet.run import partition_of
from mvtgate.planet.schedule import Schedule, Stopped
from mvtgate.planet.sources import SourceChanged, open_source
from mvtgate.planet.work import Task, UnfitWorker
from planet.helpers.made import block, layer
from planet.helpers.runs import INDEX, VALID, Tile, write_database

FAULT = {"code": 201, "layer": 0}


class KilledWorker(Exception):
    """As Dask names it."""


class Future:
    """A call that a client was asked for."""

    def __init__(self, client: Client, name: str, words: Tuple[Any, ...], workers: Optional[List[str]]) -> None:
        self.client, self.name, self.words, self.workers = client, name, words, workers
        self.partition: Optional[Partition] = words[1] if name == "judge" else None
        self.status, self.is_released = "pending", False
        self._result: Any = None
        self._error: Optional[Exception] = None

    def __await__(self) -> Generator[None, None, Any]:
        yield from ()
        if self._error is not None:
            raise self._error
        return self._result

    def release(self) -> None:
        self.is_released = True

    def end(self, result: Any = None, error: Optional[Exception] = None) -> None:
        """It was answered."""
        self._result, self._error = result, error
        self.status = "finished" if error is None else "cancelled" if isinstance(error, concurrent.futures.CancelledError) else "error"
        # (in a thread of its own, as Dask does)
        thread = threading.Thread(target=lambda: asyncio.run(self.client.fetch(self)))
        thread.start()
        thread.join()


class Client:
    """What the loop needs of Dask's. `answer` is told of each call, and `look` of each look at the workers."""

    def __init__(self, answer: Callable[[Future], None], workers: List[str]) -> None:
        self.loop, self.status = self, "running"
        self.fetch: Callable[[Any], Any]
        self.workers, self.looks = workers, 0
        self.asked: List[Future] = []
        self.keys: List[str] = []
        self.look: Callable[[int], None] = lambda _: None
        self._answer = answer

    def scheduler_info(self, n_workers: int = 5) -> Dict[str, Any]:
        """As Dask has it, of which later versions leave out all but some workers; a negative number is all."""
        self.looks += 1
        self.look(self.looks)
        told = self.workers if n_workers < 0 else self.workers[:n_workers]
        return {"workers": {address: {"nthreads": 1} for address in told}}

    def run(self, call: Callable[[], str], workers: List[str], on_error: str) -> Dict[str, str]:
        """What each of these workers says, which are all of this process."""
        assert on_error == "return"
        return {worker: call() for worker in workers}

    def submit(self, call: Any, *words: Any, key: str, workers: Optional[List[str]], retries: int, pure: bool) -> Future:
        assert not pure and retries == 2 and key not in self.keys
        self.keys.append(key)
        return Future(self, call.__name__, words, workers)

    def add_callback(self, fetch: Callable[[Any], Any], future: Future) -> None:
        self.fetch = fetch
        self.asked.append(future)
        self._answer(future)

    @property
    def under_way(self) -> List[Future]:
        return [it for it in self.asked if it.status == "pending" and not it.is_released]


def judged_of(partition: Partition, by: str, has_fault: bool) -> Judged:
    finding = Finding(partition.first[0], partition.first[1], 5, fault=FAULT)
    return Judged(partition, by, findings=[finding] if has_fault else [])


class Trial:
    """A schedule over a database of 64 tiles at one zoom."""

    def __init__(self, folder: pathlib.Path, answer: Callable[[Future], None], workers: List[str], rows: int = 64) -> None:
        tiles = [Tile(6, 1, row // 2 if rows < 64 else row, VALID) for row in range(rows)]
        self.source = open_source(str(write_database(folder / "tiles", tiles, index=INDEX.replace("UNIQUE", "") if rows < 64 else INDEX)))
        [extent] = self.source.survey()
        task = Task(self.source.path, self.source.stamp(), extent, "polygon", False, mvtgate.version())
        self.client = Client(answer, workers)
        self.path = folder / "journal.jsonl"
        self.journal = Journal(str(self.path), {"format": FORMAT, "began": ""})
        self.done: List[Partition] = []
        self.schedule = Schedule(self.client, lambda _: task, self.journal, self.done.append)

    def run(self, partition: int) -> None:
        self.schedule.run(self.source.partitions(0, partition))
        assert not self.client.under_way
        assert sum(it.tiles for it in self.done) == sum(it.tiles for it in self.source.partitions(0, 1000))
        assert len(self.done) == len(set(self.done))
        assert sorted(self.done) == sorted([*self.journal.partitions(), *(it for it, _ in self.schedule.unjudged)])


@pytest.fixture(autouse=True)
def short_times(monkeypatch: pytest.MonkeyPatch) -> None:
    monkeypatch.setattr(schedule, "_TICK", 0.01)


def wait(_: Future) -> None:
    """Nothing is answered before the client checks the workers."""


def answered_by(judge: str, checker: str, has_fault: bool = True) -> Callable[[Future], None]:
    def answer(future: Future) -> None:
        if future.partition is not None:
            future.end(judged_of(future.partition, judge, has_fault))
        else:
            future.end((checker, [True]))

    return answer


def test_each_part_is_judged_and_confirmed(tmp_path: pathlib.Path) -> None:
    trial = Trial(tmp_path, answered_by("a", "b"), ["a", "b", "c"])
    trial.run(4)
    assert [it.name for it in trial.client.asked].count("judge") == 16
    assert {tuple(it.workers or ()) for it in trial.client.asked if it.name == "confirm"} == {("b", "c")}
    for partition in trial.journal.partitions():
        judged = trial.journal.judged(partition)
        assert (judged.judged_by, judged.confirmed_by, judged.findings[0].confirmed) == ("a", "b", True)
    assert trial.schedule.most_workers == 3


@pytest.mark.parametrize("workers", ["ab", "abcdefgh"])
def test_few_are_under_way(tmp_path: pathlib.Path, workers: str) -> None:
    """Four for each thread of a worker, however many there are."""
    waiting: List[Future] = []
    most = 0

    def answer(future: Future) -> None:
        nonlocal most
        waiting.append(future)
        most = max(most, len(trial.client.under_way))

    def look(_: int) -> None:
        for future in waiting[:3]:
            answered_by("a", "b", has_fault=False)(future)
        del waiting[:3]

    trial = Trial(tmp_path, answer, list(workers))
    trial.client.look = look
    trial.run(1)
    assert most == 4 * len(workers) and trial.schedule.most_workers == len(workers)


def test_workers_that_come_later(tmp_path: pathlib.Path) -> None:
    """There is none for a while; then one, which confirms by itself since there never was another."""
    waiting: List[Future] = []

    def look(number: int) -> None:
        trial.client.workers = ["a"] if number > 5 else []
        if number > 6:
            for future in list(waiting):
                waiting.remove(future)
                answered_by("a", "a")(future)

    trial = Trial(tmp_path, waiting.append, [])
    trial.client.look = look
    trial.run(16)
    assert {it.workers is None for it in trial.client.asked} == {True}


def test_checkers_that_go(tmp_path: pathlib.Path) -> None:
    """The workers that alone may confirm have gone: others are asked, and the first call is given up."""

    def answer(future: Future) -> None:
        if future.name == "judge" or future.workers == ["c"]:
            answered_by("a", "c")(future)

    def look(number: int) -> None:
        trial.client.workers = ["a", "c"] if number > 4 else ["a", "b"]

    trial = Trial(tmp_path, answer, ["a", "b"])
    trial.client.look = look
    trial.run(64)
    assert [(it.name, it.workers, it.is_released) for it in trial.client.asked] == [
        ("judge", None, True), ("confirm", ["b"], True), ("confirm", ["c"], True)
    ]  # fmt: skip


def test_faults_wait_for_another_worker(tmp_path: pathlib.Path) -> None:
    """The other worker has ended and comes again, so the one that found them isn't asked."""

    def look(number: int) -> None:
        trial.client.workers = ["a", "b"] if number < 3 else ["a"] if number < 9 else ["a", "d"]

    def answer(future: Future) -> None:
        if future.name == "judge" or future.workers == ["d"]:
            answered_by("a", "d")(future)

    trial = Trial(tmp_path, answer, ["a", "b"])
    trial.client.look = look
    trial.run(64)
    assert [it.workers for it in trial.client.asked] == [None, ["b"], ["d"]]


def test_nobody_comes_to_confirm(tmp_path: pathlib.Path, monkeypatch: pytest.MonkeyPatch) -> None:
    """After a while the worker that is left confirms its own, and then it does so at once."""
    monkeypatch.setattr(schedule, "_PATIENCE", 0.1)

    def look(number: int) -> None:
        trial.client.workers = ["a", "b"] if number < 3 else ["a"]

    def answer(future: Future) -> None:
        if future.name == "judge" or future.workers is None:
            answered_by("a", "a")(future)

    trial = Trial(tmp_path, answer, ["a", "b"])
    trial.client.look = look
    trial.run(4)
    assert len(trial.journal.partitions()) == 16


def killing(trial: Trial, killers: List[int], with_all: bool, by: str = "judge") -> None:
    """A call with one of these rows ends its worker, each time, and with it all that is under way where that is asked for."""

    def is_killer(future: Future) -> bool:
        part = future.partition
        if part is None:
            return by == "confirm" and future.words[1].faults[0].row in killers
        return by == "judge" and any(part.first[1] <= row <= part.last[1] for row in killers)

    def look(_: int) -> None:
        waiting = trial.client.under_way
        has_ended = with_all and any(map(is_killer, waiting))
        for future in waiting:
            if has_ended or is_killer(future):
                future.end(error=KilledWorker(future.name))
            else:
                answered_by("a", "b", has_fault=by == "confirm")(future)

    trial.client.look = look


@pytest.mark.parametrize("partition", [1, 3, 64])
@pytest.mark.parametrize("with_all", [False, True])
def test_tiles_that_end_workers(tmp_path: pathlib.Path, partition: int, with_all: bool) -> None:
    """Only they are left in the end, whatever was beside them."""
    trial = Trial(tmp_path, wait, ["a", "b"])
    killing(trial, [7, 8, 40], with_all)
    trial.run(partition)
    reason = "the worker that judged it ended, each time"
    assert sorted(trial.schedule.unjudged) == [(Partition(0, 6, (1, row), (1, row), 1), reason) for row in (7, 8, 40)]
    assert sum(it.tiles for it in trial.journal.partitions()) == 61
    trial.journal.close()
    again = Journal(str(trial.path), {"format": FORMAT, "began": ""})
    left = [it for whole in trial.source.partitions(0, partition) for it in again.left(whole)]
    assert [it.first[1] for it in left] == [7, 8, 40]
    again.close()


def test_faults_that_end_checkers(tmp_path: pathlib.Path) -> None:
    """They stay without an answer."""
    trial = Trial(tmp_path, wait, ["a", "b"])
    killing(trial, [7], with_all=True, by="confirm")
    trial.run(1)
    answers = {it.first[1]: trial.journal.judged(it).findings[0].confirmed for it in trial.journal.partitions()}
    assert answers == {row: None if row == 7 else True for row in range(64)}


def test_tiles_at_one_place_end(tmp_path: pathlib.Path) -> None:
    """They can't be taken apart, and the run still ends."""
    trial = Trial(tmp_path, wait, ["a", "b"], rows=6)
    killing(trial, [62], with_all=True)
    trial.run(6)
    assert [(it.first, it.tiles) for it, _ in trial.schedule.unjudged] == [((1, 62), 2)]


def test_tiles_that_go_before_their_parts_are_made(tmp_path: pathlib.Path) -> None:
    """Of a folder that is the only sign that it has changed: none is left out without a word."""
    column = tmp_path / "tiles/6/1"
    column.mkdir(parents=True)
    for row in range(20):
        (column / f"{row}.mvt").write_bytes(VALID)
    source = open_source(str(tmp_path / "tiles"))
    [extent] = source.survey()
    task = Task(source.path, source.stamp(), extent, "polygon", False, mvtgate.version())

    def answer(future: Future) -> None:
        (column / "7.mvt").unlink(missing_ok=True)
        future.end(error=KilledWorker())

    it = Schedule(Client(answer, ["a", "b"]), lambda _: task, Journal(str(tmp_path / "journal.jsonl"), {"format": FORMAT, "began": ""}), lambda _: None)
    with pytest.raises(SourceChanged, match="has 19 tiles where it had 20 when the run began"):
        it.run(source.partitions(0, 1000))


def test_many_mended_tiles_go_on_in_parts(tmp_path: pathlib.Path, monkeypatch: pytest.MonkeyPatch) -> None:
    """Bytes of mended tiles are returned for few tiles at a time. That there are too many is an answer, which isn't asked for again."""
    bow = layer("a", 2, block(2, b"\x18\x03\x22\x0b\x09\x00\x10\x1a\x14\x0f\x00\x14\x13\x13\x0f"))
    source = open_source(str(write_database(tmp_path / "tiles", [Tile(6, 1, row, bow) for row in range(32)])))
    [extent] = source.survey()
    task = Task(source.path, source.stamp(), extent, "polygon", False, mvtgate.version(), is_mending=True)
    payload = len(mend(mvtgate.Profile.POLYGON, False, Address(6, 1, 0), bow, bow)[1])
    monkeypatch.setattr(work, "_MOST_MENDED", 3 * payload)

    def answer(future: Future) -> None:
        future.end(work.judge(*future.words) if future.partition else ("b", [True] * len(future.words[1].unconfirmed)))

    client, journal = Client(answer, ["a", "b"]), Journal(str(tmp_path / "journal.jsonl"), {"format": FORMAT, "began": ""})
    Schedule(client, lambda _: task, journal, lambda _: None).run(source.partitions(0, 1000))
    asked = [it.partition.tiles for it in client.asked if it.partition]
    assert asked == [32, *[2] * 16] and journal.tiles == 32 and len(journal.partitions()) == 16
    assert all(it.is_mended for partition in journal.partitions() for it in journal.judged(partition).findings)


def test_other_errors_are_told(tmp_path: pathlib.Path) -> None:
    """Of a part of the file that can't be read, say."""

    def answer(future: Future) -> None:
        part = future.partition
        if part and part.first[1] <= 9 <= part.last[1]:
            future.end(error=RuntimeError("disk I/O error"))
        else:
            answered_by("a", "b", has_fault=False)(future)

    trial = Trial(tmp_path, answer, ["a"])
    trial.run(64)
    assert trial.schedule.unjudged == [(Partition(0, 6, (1, 9), (1, 9), 1), "disk I/O error")]


ENDS: List[Tuple[Exception, type]] = [
    (SourceChanged("changed"), SourceChanged),
    (UnfitWorker("other"), UnfitWorker),
    (ModuleNotFoundError("No module named 'mvtgate'"), UnfitWorker),
    (concurrent.futures.CancelledError("judge"), Stopped),
]


@pytest.mark.parametrize("error, raised", ENDS, ids=str)
def test_what_ends_a_run(tmp_path: pathlib.Path, error: Exception, raised: type) -> None:
    """At once, and without a line for it in the journal."""
    trial = Trial(tmp_path, lambda future: future.end(error=error) if len(trial.client.asked) == 3 else None, ["a", "b"])
    with pytest.raises(raised):
        trial.schedule.run(trial.source.partitions(0, 8))
    assert len(trial.path.read_text().splitlines()) == 1
    assert not trial.client.under_way


def test_client_that_was_closed(tmp_path: pathlib.Path) -> None:
    trial = Trial(tmp_path, lambda _: None, ["a"])
    trial.client.look = lambda number: setattr(trial.client, "status", "closed") if number == 3 else None
    with pytest.raises(Stopped, match="the scheduler has gone"):
        trial.schedule.run(trial.source.partitions(0, 8))
    assert not trial.client.under_way


def test_lines_of_the_journal(tmp_path: pathlib.Path) -> None:
    """A part that was divided has a line before those of its own parts."""
    trial = Trial(tmp_path, wait, ["a", "b"])
    killing(trial, [5], with_all=False)
    trial.run(64)
    lines = [json.loads(line) for line in trial.path.read_text().splitlines()][1:]
    assert lines[0]["split"]["tiles"] == 64 and [it["tiles"] for it in lines[0]["into"]] == [4] * 16
    assert [it["split"]["tiles"] for it in lines if "split" in it] == [64, 4]


@pytest.mark.parametrize("tiles, wanted", [(1, 4_000), (256_000, 4_000), (256_001, 4_001), (640_000, 10_000), (1_024_000, 16_000), (10**8, 16_000)])
def test_tiles_that_a_worker_gets(tiles: int, wanted: int) -> None:
    """Where the words don't say: a 64th of all, but not few, since each time costs something, nor very many."""
    assert partition_of(tiles) == wanted
