"""Bytes to which lines of a journal refer: a file beside it, to which is only added.

They are on the disk before the line is. What is behind the last line's bytes is of a call that was killed, and is taken away.
"""
from __future__ import annotations

import os

from .endings import Refused, Unfinished, ending_of, writing


class StoreLacks(Refused):
    """A store that is shorter than the journal says."""


class Store:
    """Opened for one call alone, whose journal is locked. `end` is where the next bytes go."""

    def __init__(self, path: str, is_read: bool = False) -> None:
        self.path = path
        try:
            self._file = open(path, "rb" if is_read else "a+b", buffering=0)
        except OSError as error:
            raise ending_of(error, path) from None
        self.end = os.fstat(self._file.fileno()).st_size

    def cut(self, end: int) -> None:
        """Forgets what is behind the bytes that the journal's lines have."""
        if end > self.end:
            raise StoreLacks(f"{self.path} has {self.end} bytes where the journal says {end}; begin --anew")
        with writing(self.path):
            os.ftruncate(self._file.fileno(), end)
        self.end = end

    def add(self, data: bytes) -> int:
        """Adds bytes, and returns where they begin."""
        at, left = self.end, memoryview(data)
        with writing(self.path):
            while left:
                left = left[os.write(self._file.fileno(), left) :]
        self.end += len(data)
        return at

    def sync(self) -> None:
        """Has what was added be on the disk."""
        with writing(self.path):
            os.fsync(self._file.fileno())

    def read(self, at: int, size: int) -> bytes:
        data = os.pread(self._file.fileno(), size, at)
        if len(data) != size:
            raise Unfinished(f"{self.path}: {size} bytes at {at} can't be read")
        return data

    def close(self) -> None:
        self._file.close()
