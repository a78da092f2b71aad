"""A report in a file, which is written when all is judged."""
from __future__ import annotations

import abc
import contextlib
import shutil
import tempfile
from types import TracebackType
from typing import Iterator, List, Optional, Type

from .answers import Answer
from .counts import Counts


@contextlib.contextmanager
def naming(path: str) -> Iterator[None]:
    """An error of writing has the name of what was written."""
    try:
        yield
    except OSError as error:
        error.filename = error.filename or path
        raise


class Report(abc.ABC):
    """Its entries are kept in a temporary file. So the report has its numbers in front, and is empty where the run didn't end:
    no reader takes half a report for a whole one."""

    def __init__(self, path: str, counts: Counts) -> None:
        self._path = path
        self._counts = counts
        with naming(path):
            self._file = open(path, "w", encoding="utf-8", newline="\n")
        with naming(tempfile.gettempdir()):
            self._entries = tempfile.TemporaryFile("w+", encoding="utf-8", newline="\n")

    @abc.abstractmethod
    def entry(self, answer: Answer) -> str:
        """The entry of a tile, or nothing."""

    @abc.abstractmethod
    def head(self) -> str:
        """What stands before the entries."""

    @abc.abstractmethod
    def tail(self) -> str:
        """What stands after them."""

    def words(self) -> List[str]:
        """What is to be said of it beside the summary."""
        return []

    def write(self, answer: Answer) -> None:
        """Takes one more answer."""
        with naming(tempfile.gettempdir()):
            self._entries.write(self.entry(answer))

    def _finish(self) -> None:
        self._entries.seek(0)
        self._file.write(self.head())
        shutil.copyfileobj(self._entries, self._file)
        self._file.write(self.tail())
        self._file.flush()

    def __enter__(self) -> Report:
        return self

    def __exit__(self, kind: Optional[Type[BaseException]], error: Optional[BaseException], trace: Optional[TracebackType]) -> None:
        with naming(self._path), self._file, self._entries:
            if kind is None:
                self._finish()
