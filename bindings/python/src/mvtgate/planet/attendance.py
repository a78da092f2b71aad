"""Which workers are there, and which of them end right after they have joined, so that a run can say so.

A worker that ends is started again. One that can't work at all, since memory runs out, say, comes and goes without an end, and what
it was handed is done by the others, or by nobody.
"""
from __future__ import annotations

import collections
import contextlib
import threading
import time
from typing import Any, Counter, Dict, Iterator, List, Mapping, Optional, Tuple

# a worker that ends within so many seconds has ended right after it joined
_EARLY = 10.0
# so many of a machine are told, and then each time that there are twice as many
_SEVERAL = 3
# seconds without any worker that are told
_NOBODY = 20.0
# what a scheduler calls its news of all workers
_TOPIC = "all"


def host_of(worker: str) -> str:
    """The machine of a worker's address, such as tcp://10.0.0.2:38211."""
    return worker.rpartition("://")[2].rpartition(":")[0]


class Attendance:
    """Hears from the scheduler who comes and goes (`take`, in whichever thread), and says what is to be told (`news`)."""

    def __init__(self) -> None:
        self._lock = threading.Lock()
        self._joined: Dict[str, float] = {}
        self._early: Counter[str] = collections.Counter()
        self._next: Dict[str, int] = {}
        self._alone_since: Optional[float] = None
        self._is_told = False
        self.workers = 0

    @contextlib.contextmanager
    def hearing(self, client: Any) -> Iterator[None]:
        """Hears what the client's scheduler says, until its end."""
        client.subscribe_topic(_TOPIC, self.take)
        try:
            yield
        finally:
            # (a scheduler that wrote to a client that has gone would complain; and one may have gone itself)
            with contextlib.suppress(Exception):
                client.unsubscribe_topic(_TOPIC)

    def take(self, event: Tuple[float, Mapping[str, Any]]) -> None:
        """What the scheduler says that happened, and when by its own clock."""
        moment, members = event
        action, worker = members.get("action"), members.get("worker")
        if not isinstance(worker, str):
            return
        with self._lock:
            if action == "add-worker":
                self._joined[worker] = moment
            elif action == "remove-worker" and moment - self._joined.pop(worker, moment - _EARLY) < _EARLY:
                self._early[host_of(worker)] += 1

    @property
    def early(self) -> int:
        """How many workers have ended right after they joined."""
        with self._lock:
            return self._early.total()

    def news(self, workers: int) -> List[str]:
        """What is to be told now, when there are so many workers."""
        self.workers = workers
        with self._lock:
            hosts = [host for host, count in self._early.items() if count >= self._next.get(host, _SEVERAL)]
            for host in hosts:
                self._next[host] = 2 * self._early[host]
            told = [_early_text(host, self._early[host]) for host in hosts]
        return told + self._nobody()

    def _nobody(self) -> List[str]:
        """Once, when there has been no worker for a while."""
        now = time.monotonic()
        if self.workers:
            self._alone_since, self._is_told = None, False
            return []
        if self._alone_since is None:
            self._alone_since = now
        if self._is_told or now - self._alone_since < _NOBODY:
            return []
        self._is_told = True
        return [f"there has been no worker for {_NOBODY:.0f} seconds; the run waits for one"]

    def standing(self, faults: int) -> str:
        """How the run stands, for the line of its progress."""
        said = [_counted(self.workers, "worker"), _counted(faults, "fault")]
        if self.early:
            said.append(f"{self.early} ended early")
        return ", ".join(said)


def _early_text(host: str, count: int) -> str:
    return (
        f"{count} workers on {host} have ended within {_EARLY:.0f} seconds after they had joined: "
        "their log or the machine's may say why, such as memory that ran out"
    )


def _counted(number: int, name: str) -> str:
    return f"{number} {name}{'' if number == 1 else 's'}"
