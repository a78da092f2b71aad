"""Pieces of work: tiles that one process reads, one after another."""
from __future__ import annotations

import abc
import functools
import os
from dataclasses import dataclass
from typing import Any, Dict, Iterator, List, NamedTuple, Optional

from .._files import LIMIT
from ..planet.records import Partition
from ..planet.sources import NotASource, Source, SourceChanged, open_source
from .names import on_one_line


class Raw(NamedTuple):
    """A tile as it is stored, and in an archive its place z/x/y. Where it couldn't be read, `error` says why."""

    file: str
    place: Optional[str]
    data: bytes
    error: Optional[str]


class Piece(abc.ABC):
    """Some tiles, which may be read in another process than the one that found them."""

    @property
    @abc.abstractmethod
    def size(self) -> int:
        """How many tiles it has."""

    @abc.abstractmethod
    def tiles(self) -> Iterator[Raw]:
        """Reads them, one at a time."""


@dataclass(frozen=True)
class Failed(Piece):
    """What couldn't be read, or isn't there."""

    file: str
    error: str

    @property
    def size(self) -> int:
        return 1

    def tiles(self) -> Iterator[Raw]:
        yield Raw(self.file, None, b"", self.error)


@dataclass(frozen=True)
class Given(Piece):
    """One tile that was read already, such as standard input."""

    file: str
    data: bytes

    @property
    def size(self) -> int:
        return 1

    def tiles(self) -> Iterator[Raw]:
        yield Raw(self.file, None, self.data, None)


def _read(path: str) -> Raw:
    """A file, but no more of it than shows that it is too large."""
    try:
        with open(path, "rb") as file:
            return Raw(path, None, file.read(LIMIT + 1), None)
    except OSError as error:
        return Raw(path, None, b"", error.strerror or str(error))
    except MemoryError:
        return Raw(path, None, b"", "out of memory")


@dataclass(frozen=True)
class Files(Piece):
    """Files with a tile each."""

    paths: List[str]

    @property
    def size(self) -> int:
        return len(self.paths)

    def tiles(self) -> Iterator[Raw]:
        return map(_read, self.paths)


@functools.lru_cache(maxsize=4)
def _opened(path: str) -> Source:
    return open_source(path)


def reason(path: str, error: Exception) -> str:
    """What an error says, without the path at its front."""
    if isinstance(error, OSError):
        return error.strerror or str(error)
    said = str(error)
    fronts = (f"{it}{after}" for it in (os.path.abspath(path), path) for after in (": ", " "))
    front = next((it for it in fronts if said.startswith(it)), "")
    # (it may quote the file, which may have any bytes)
    return on_one_line(said[len(front) :])


@dataclass(frozen=True)
class ArchivePart(Piece):
    """Some tiles of an MBTiles file, which has to be as it was when the run began."""

    file: str
    stamp: Dict[str, Any]
    partition: Partition

    @property
    def size(self) -> int:
        return self.partition.tiles

    def tiles(self) -> Iterator[Raw]:
        count = 0
        try:
            source = _opened(self.file)
            for stored in source.tiles(self.partition):
                count += 1
                yield Raw(self.file, f"{self.partition.zoom}/{stored.column}/{stored.row}", stored.data, stored.error)
            source.check(self.stamp)
            if count != self.size:
                raise SourceChanged(f"it has {count} tiles where it had {self.size} when the run began")
        except (NotASource, SourceChanged, OSError) as error:
            yield Raw(self.file, None, b"", reason(self.file, error))
        except MemoryError:
            yield Raw(self.file, None, b"", "out of memory")
