"""The journal of a run: a line of JSON for each partition that is done, with all that was found in it.

What is done and what was found are one line, which is on the disk before the run goes on, so they can't come apart. The first
line says of which run it is. Each later one has the seconds that all calls took until then, so that a run which goes on knows
those of the earlier ones, however they ended. A line that was cut off in the middle of a write is no line, and is taken away.
"""
from __future__ import annotations

import errno
import fcntl
import json
import os
import time
from typing import Any, BinaryIO, Callable, Dict, Iterator, List

from .endings import Refused, Unfinished, ending_of
from .records import Judged, Partition
from .store import Store

FORMAT = 3


class JournalError(Refused):
    """A journal that can't be gone on with, with the reason."""


class NotWritten(Unfinished):
    """A journal that a line couldn't be added to, with the reason."""


class Journal:
    """Opened for one call alone, which began `seconds` ago by the clock. The lines themselves stay in the file, and bytes of tiles in a
    store beside it.

    `faults` is how many tiles with a fault it has. `on_begin` is called where the run begins, before anything is written, and not
    where it goes on.
    """

    def __init__(
        self,
        path: str,
        run: Dict[str, Any],
        is_anew: bool = False,
        seconds: float = 0.0,
        on_begin: Callable[[], None] = lambda: None,
    ) -> None:
        self.path = path
        self.faults = 0
        self._done: Dict[Partition, int] = {}
        self._splits: Dict[Partition, List[Partition]] = {}
        self._file = self._open()
        self._end = self._stored = 0
        self._earlier = 0.0
        self._began = time.monotonic() - seconds
        self.store = Store(f"{os.path.splitext(path)[0]}.bin")
        try:
            self._begin(run, is_anew, on_begin)
        except OSError as error:
            self.close()
            raise ending_of(error, path) from None
        except BaseException:
            self.close()
            raise

    def _begin(self, run: Dict[str, Any], is_anew: bool, on_begin: Callable[[], None]) -> None:
        if is_anew:
            os.ftruncate(self._file.fileno(), 0)
        self._read(run)
        os.ftruncate(self._file.fileno(), self._end)
        self.store.cut(self._stored)
        if self._end == 0:
            on_begin()
            self._write({"run": run})

    def _open(self) -> BinaryIO:
        try:
            file = open(self.path, "a+b", buffering=0)
        except OSError as error:
            raise ending_of(error, self.path) from None
        try:
            fcntl.flock(file, fcntl.LOCK_EX | fcntl.LOCK_NB)
        except OSError as error:
            file.close()
            reason = "another run is writing to it" if error.errno == errno.EWOULDBLOCK else error.strerror
            raise JournalError(f"{self.path}: {reason}") from None
        return file

    def _read(self, run: Dict[str, Any]) -> None:
        with open(self.path, "rb") as file:
            for line in file:
                if not line.endswith(b"\n"):
                    return
                try:
                    self._take(json.loads(line), run)
                except (ValueError, LookupError, TypeError, RecursionError):
                    raise JournalError(f"{self.path}: at byte {self._end} is no line of a journal") from None
                self._end += len(line)

    def _take(self, members: Any, run: Dict[str, Any]) -> None:
        if not isinstance(members, dict):
            raise ValueError(members)
        if self._end == 0:
            self._expect(members, run)
            return
        if "judged" in members:
            self._done[Partition.of(members["judged"]["partition"])] = self._end
            self.faults += sum(it["fault"] is not None for it in members["judged"]["findings"])
            self._stored = int(members["stored"])
        else:
            self._splits[Partition.of(members["split"])] = [Partition.of(it) for it in members["into"]]
        self._earlier = float(members["clock"])

    def _expect(self, members: Dict[str, Any], run: Dict[str, Any]) -> None:
        """The run that is gone on with has to be this one, but for the time when it began."""
        was = members.get("run")
        if not isinstance(was, dict) or was.get("format") != FORMAT:
            raise JournalError(f"{self.path} is no journal of this version")
        different = [key for key in run if key != "began" and run[key] != was.get(key)]
        if different:
            raise JournalError(
                f"{self.path} is of another run ({', '.join(different)} not the same): the tiles have changed, or the words are "
                "others; name another --output, or begin --anew"
            )
        run["began"] = was["began"]

    def _write(self, members: Dict[str, Any]) -> None:
        line = json.dumps(members, separators=(",", ":")).encode() + b"\n"
        try:
            # (a write may end early without an error)
            left = memoryview(line)
            while left:
                left = left[self._file.write(left) :]
            os.fsync(self._file.fileno())
        except OSError as error:
            raise NotWritten(f"{self.path}: {error.strerror}; what was written before stands") from None
        self._end += len(line)

    def add(self, judged: Judged) -> None:
        """A partition is done."""
        at = self._end
        assert judged.partition not in self._done
        self._keep(judged)
        self._write({"judged": judged.members(), "clock": self._clock(), "stored": self.store.end})
        self._done[judged.partition] = at
        self.faults += len(judged.faults)

    def _keep(self, judged: Judged) -> None:
        """Puts the bytes of its tiles into the store."""
        mended = [it.mending for it in judged.findings if it.mending is not None and it.mending.is_mended]
        for mending, payload in zip(mended, judged.payloads):
            mending.at = self.store.add(payload)
        judged.sums = self.store.add(judged.block), len(judged.block)
        if judged.payloads or judged.block:
            self.store.sync()
        judged.payloads, judged.block = [], b""

    def split(self, partition: Partition, into: List[Partition]) -> None:
        """A partition goes on as these parts, also in a later run."""
        self._write({"split": partition.members(), "into": [it.members() for it in into], "clock": self._clock()})
        self._splits[partition] = into

    def left(self, partition: Partition) -> Iterator[Partition]:
        """What is not done of a partition: itself, or those of its parts that aren't."""
        if partition in self._splits:
            for it in self._splits[partition]:
                yield from self.left(it)
        elif partition not in self._done:
            yield partition

    @property
    def seconds(self) -> float:
        """How long this call and all earlier ones took, by the clock."""
        return self._earlier + time.monotonic() - self._began

    def _clock(self) -> float:
        return round(self.seconds, 3)

    @property
    def tiles(self) -> int:
        """How many tiles are done."""
        return sum(it.tiles for it in self._done)

    def partitions(self) -> List[Partition]:
        """All that are done, in the order of the tiles."""
        return sorted(self._done)

    def judged(self, partition: Partition) -> Judged:
        """What was found in a partition that is done."""
        with open(self.path, "rb") as file:
            file.seek(self._done[partition])
            return Judged.of(json.loads(file.readline())["judged"])

    def close(self) -> None:
        self.store.close()
        self._file.close()
