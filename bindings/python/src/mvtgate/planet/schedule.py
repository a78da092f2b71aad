"""The run itself: partitions go to workers, what they found goes to the journal.

A partition is judged by one worker, and its faults are confirmed by another one. Where a partition can't be done, since it ends
its worker or a part of the file can't be read, it goes on in smaller parts, so that in the end only the tile that is to blame is
left. A worker that ends takes with it what it had beside, so such a tile is tried once more when nothing else is under way. At
most a few partitions for each worker are under way at a time, so that neither the scheduler nor this process holds more of a
large run than of a small one.
"""
from __future__ import annotations

import collections
import math
import queue
import time
import uuid
from dataclasses import dataclass, field, replace
from typing import Any, Callable, Deque, Dict, Iterator, List, Optional, Set, Tuple

import mvtgate

from .cluster import versions_of
from .endings import Unfinished, reason_of
from .journal import Journal
from .records import Judged, Partition
from .since import Known
from .sources import SourceChanged
from .work import Task, TooManyMended, UnfitWorker, confirm, judge

# partitions under way for each thread of a worker, and parts of one that can't be done
_WINDOW = 4
_PARTS = 16
# how often an error is tried again that isn't the end of a worker
_RETRIES = 2
# seconds between two looks at the workers
_TICK = 1.0
# seconds that faults wait for another worker to confirm them, where only that one is left which found them
_PATIENCE = 30.0

_GONE = "the scheduler has gone, and with it what was under way; the same words go on"
_ENDED = "the worker that judged it ended, each time"


class Stopped(Unfinished):
    """A run whose scheduler has gone."""


@dataclass
class _UnderWay:
    """A partition that a worker has. It is judged as long as `judged` is None, and then confirmed by one of `allowed`."""

    partition: Partition
    judged: Optional[Judged] = None
    allowed: Optional[List[str]] = None
    is_alone: bool = False
    # (of mended tiles, and the sums of all, which the checker isn't sent)
    payloads: List[bytes] = field(default_factory=list)
    block: bytes = b""


class Schedule:
    """Does what is left of a run. `unjudged` are the single tiles that can't be judged, each with the reason.

    `on_done` is told of each partition that is done, and `on_look` each second how many workers there are. `known_of` says what an
    earlier run knows of a partition's tiles.
    """

    def __init__(
        self,
        client: Any,
        task_of: Callable[[Partition], Task],
        journal: Journal,
        on_done: Callable[[Partition], None],
        on_look: Callable[[int], None] = lambda _: None,
        known_of: Callable[[Partition], Optional[Known]] = lambda _: None,
    ) -> None:
        self._client = client
        self._task_of = task_of
        self._journal = journal
        self._on_done = on_done
        self._on_look = on_look
        self._known_of = known_of
        self._name = uuid.uuid4().hex
        self._ended: queue.Queue[Tuple[Any, Any, Optional[Exception]]] = queue.Queue()
        self._under_way: Dict[Any, _UnderWay] = {}
        self._first: Deque[Partition] = collections.deque()
        self._suspects: Deque[_UnderWay] = collections.deque()
        self._waiting: List[_UnderWay] = []
        self._several = -math.inf
        self._threads: Dict[str, int] = {}
        self._asked: Set[str] = set()
        self._looked = 0.0
        self._submitted = 0
        self.unjudged: List[Tuple[Partition, str]] = []
        self.most_workers = 0

    def run(self, partitions: Iterator[Partition]) -> None:
        """Does these partitions. Stopped or SourceChanged where it can't go on."""
        try:
            self._look_at_workers()
            self._fill(partitions)
            while self._under_way or self._waiting:
                self._take_ended()
                self._look_at_workers()
                self._fill(partitions)
        finally:
            for future in self._under_way:
                future.release()

    def _look_at_workers(self) -> None:
        """Which workers there are. Of a fault that can be confirmed by workers alone that have gone others are asked."""
        if time.monotonic() - self._looked < _TICK:
            return
        self._expect_scheduler()
        try:
            # (later versions of Dask tell of five workers alone, unless they are asked for all)
            workers = self._client.scheduler_info(n_workers=-1)["workers"]
            self._threads = {address: it["nthreads"] for address, it in workers.items()}
            self._ask_new_workers()
        except OSError:
            # (of a connection that has ended)
            raise Stopped(_GONE) from None
        self.most_workers = max(self.most_workers, len(self._threads))
        self._looked = time.monotonic()
        self._on_look(len(self._threads))
        if len(self._threads) > 1:
            self._several = self._looked
        waiting, self._waiting = self._waiting, []
        for it in waiting:
            self._submit_again(it)
        for future, it in list(self._under_way.items()):
            if it.allowed and not set(it.allowed) & self._threads.keys():
                del self._under_way[future]
                future.release()
                self._submit_again(it)

    def _expect_scheduler(self) -> None:
        # (a client that connects again has given up what was under way)
        if self._client.status != "running":
            raise Stopped(_GONE)

    def _ask_new_workers(self) -> None:
        """UnfitWorker where one of them can't do the work."""
        new = self._threads.keys() - self._asked
        self._asked |= new
        for worker, version in versions_of(self._client, new).items() if new else ():
            if version != mvtgate.version():
                raise UnfitWorker(f"worker {worker} has mvtgate {version}, and the run {mvtgate.version()}")

    def _fill(self, partitions: Iterator[Partition]) -> None:
        """Hands out partitions until enough are under way."""
        window = _WINDOW * max(1, sum(self._threads.values()))
        while len(self._under_way) + len(self._waiting) < window:
            if self._first:
                partition: Optional[Partition] = self._first.popleft()
            else:
                partition = next(partitions, None)
            if partition is None:
                break
            self._submit_again(_UnderWay(partition))
        if not self._under_way and not self._waiting and self._suspects:
            suspect = self._suspects.popleft()
            suspect.is_alone = True
            self._submit_again(suspect)

    def _submit_again(self, it: _UnderWay) -> None:
        """Hands out what is next for a partition: it is judged, or confirmed where it was judged."""
        if it.judged is None:
            self._submit(it, None, judge, self._task_of(it.partition), it.partition, self._known_of(it.partition))
        else:
            self._submit_confirm(it, it.judged)

    def _submit(self, it: _UnderWay, workers: Optional[List[str]], call: Callable[..., Any], *words: Any) -> None:
        # (a name that no other run has, nor an earlier try of the same partition)
        self._submitted += 1
        key = f"{call.__name__}-{it.partition.key}-{self._name}-{self._submitted}"
        future = self._client.submit(call, *words, key=key, workers=workers, retries=_RETRIES, pure=False)
        self._under_way[future] = it
        self._client.loop.add_callback(self._fetch, future)

    async def _fetch(self, future: Any) -> None:
        """Waits for what a call returns or raises, in the client's own thread, so that nothing else waits for it.

        A worker may end before it has handed over what it found. Then another one finds it again.
        """
        try:
            self._ended.put((future, await future, None))
        except Exception as error:
            self._ended.put((future, None, error))

    def _submit_confirm(self, it: _UnderWay, judged: Judged) -> None:
        others = [address for address in self._threads if address != judged.judged_by]
        if not others and time.monotonic() - self._several < _PATIENCE:
            self._waiting.append(it)
            return
        it.allowed = others or None
        self._submit(it, it.allowed, confirm, self._task_of(it.partition), judged)

    def _take_ended(self) -> None:
        """Waits for a call that ended, for a while, and takes it."""
        try:
            future, result, error = self._ended.get(timeout=_TICK)
        except queue.Empty:
            return
        it = self._under_way.pop(future, None)
        if it is None:
            return
        error = result if isinstance(result, TooManyMended) else error
        if error is None:
            self._take(it, result)
        elif future.status == "cancelled":
            raise Stopped(_GONE)
        else:
            self._expect_scheduler()
            self._fail(it, error)
        future.release()

    def _take(self, it: _UnderWay, result: Any) -> None:
        """What a call returned."""
        if it.judged is None:
            it.judged, it.payloads, it.block = replace(result, payloads=[], block=b""), result.payloads, result.block
            if it.judged.unconfirmed:
                self._submit_again(it)
                return
        else:
            it.judged.confirmed_by, answers = result
            for finding, answer in zip(it.judged.unconfirmed, answers):
                finding.confirmed = answer
        self._add(it, it.judged)

    def _add(self, it: _UnderWay, judged: Judged) -> None:
        """A partition is done."""
        judged.payloads, judged.block = it.payloads, it.block
        self._journal.add(judged)
        self._on_done(it.partition)

    def _fail(self, it: _UnderWay, error: BaseException) -> None:
        """What becomes of a partition whose call ended with an error."""
        if isinstance(error, (SourceChanged, UnfitWorker)):
            raise error
        if isinstance(error, ImportError):
            raise UnfitWorker(f"a worker lacks a part of the program: {error}")
        # (two tiles at one place stay together)
        parts = self._parts(it.partition) if it.partition.tiles > 1 else []
        if len(parts) > 1:
            self._journal.split(it.partition, parts)
            self._first.extend(parts)
        elif _is_ended(error) and not it.is_alone:
            self._suspects.append(it)
        elif it.judged is not None:
            # (it was judged, and ended the checker's worker: it stays without an answer)
            self._add(it, it.judged)
        else:
            self.unjudged.append((it.partition, _ENDED if _is_ended(error) else reason_of(error)))
            self._on_done(it.partition)

    def _parts(self, partition: Partition) -> List[Partition]:
        """Its parts. SourceChanged where they haven't all of its tiles, since some came or went, of which no worker could tell."""
        source = self._task_of(partition).source()
        parts = list(source.split(partition, -(-partition.tiles // _PARTS)))
        tiles = sum(it.tiles for it in parts)
        if tiles != partition.tiles:
            raise SourceChanged(f"{source.path} has {tiles} tiles where it had {partition.tiles} when the run began")
        return parts


def _is_ended(error: BaseException) -> bool:
    """Whether workers have ended while they had the call."""
    return type(error).__name__ == "KilledWorker"
