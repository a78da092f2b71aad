"""The copy of a source, with the mended tiles in it: whole under its name, or not there."""
from __future__ import annotations

import abc
import os
import shutil
import stat
from typing import Iterator, NamedTuple, Sequence

from ..endings import Refused, Unfinished, reason_of
from ..journal import Journal
from ..records import Place
from ..sources import Source
from ..sources.folder import Folder
from ..sources.mbtiles import Mbtiles
from ..sources.pmtiles import Pmtiles
from .tiles import sum_of


class NoCopy(Refused):
    """A copy that can't be made, with the reason."""


class Replaced(NamedTuple):
    """A tile that was mended: its place, the bytes that are stored in the source, and those in their place."""

    place: Place
    before: bytes
    after: bytes


class Copy(abc.ABC):
    """A copy that is made beside its name, and then put there. What an earlier call left beside it is begun anew."""

    def __init__(self, source: str, path: str) -> None:
        # (behind a slash, as a folder's name may have one, `.part` would be a name within the copy)
        self.source, self.path = source, os.path.normpath(path)
        self.part = f"{self.path}.part"

    @abc.abstractmethod
    def check(self) -> None:
        """NoCopy where none can be made of this source."""

    @abc.abstractmethod
    def fill(self, tiles: Iterator[Replaced]) -> None:
        """Makes the whole copy beside its name, and has it be on the disk."""

    def expect_apart(self, path: str) -> None:
        """NoCopy where a path is among what is removed before the copy is made."""
        if _is_within(path, self.part):
            raise NoCopy(f"{self.part} is written over while the copy is made, and {path} is there; name another file for the mended tiles")

    def remove_part(self) -> None:
        """Removes what is beside the name."""
        if os.path.isdir(self.part) and not os.path.islink(self.part):
            # (folders may be as closed to writing as those of the source)
            for folder, _, _ in os.walk(self.part):
                os.chmod(folder, stat.S_IRWXU)
            shutil.rmtree(self.part)
        for left in (self.part, *(f"{self.part}{it}" for it in ("-wal", "-shm", "-journal"))):
            if os.path.lexists(left):
                os.remove(left)

    def write(self, tiles: Iterator[Replaced]) -> None:
        """Makes the copy, unless an earlier call of the same run has put it there."""
        if os.path.lexists(self.path):
            return
        try:
            self.remove_part()
            self.fill(tiles)
            os.rename(self.part, self.path)
            _sync_folder(os.path.dirname(os.path.abspath(self.path)))
        except (OSError, shutil.Error) as error:
            raise Unfinished(f"{self.path}: {reason_of(error)}") from None


def _sync_folder(folder: str) -> None:
    """Has the names in a folder be on the disk."""
    descriptor = os.open(folder, os.O_RDONLY | os.O_DIRECTORY)
    try:
        os.fsync(descriptor)
    finally:
        os.close(descriptor)


def copy_of(sources: Sequence[Source], path: str) -> Copy:
    """The copy of the one source of a run. NoCopy where there are more."""
    from .folder import CopyOfFolder
    from .mbtiles import CopyOfMbtiles
    from .pmtiles import CopyOfPmtiles

    if len(sources) != 1:
        raise NoCopy("--mend takes one FILE")
    [source] = sources
    if isinstance(source, Folder):
        if _is_within(path, source.path):
            raise NoCopy(f"{path} lies in the folder that is judged")
        copy: Copy = CopyOfFolder(source.path, path)
    elif isinstance(source, Mbtiles):
        copy = CopyOfMbtiles(source.path, path)
    elif isinstance(source, Pmtiles):
        copy = CopyOfPmtiles(source.path, path)
    else:
        raise NoCopy(f"{source.path} can't be copied")
    copy.expect_apart(source.path)
    return copy


def _is_within(path: str, folder: str) -> bool:
    """Whether a path is that of a folder, or of something in it."""
    there = os.path.realpath(folder)
    return os.path.commonpath([os.path.realpath(path), there]) == there


def replaced(journal: Journal, sources: Sequence[Source]) -> Iterator[Replaced]:
    """The tiles that were mended, in the order of the tiles."""
    for partition in journal.partitions():
        for it in journal.judged(partition).findings:
            if it.mending is None or not it.mending.is_mended:
                continue
            before = _stored(sources[partition.source], partition.zoom, it.column, it.row, it.mending.before)
            after = journal.store.read(it.mending.at, it.mending.size)
            yield Replaced(Place(partition.source, partition.zoom, it.column, it.row), before, after)


def _stored(source: Source, zoom: int, column: int, row: int, wanted: str) -> bytes:
    for data in source.at(zoom, column, row):
        if sum_of(data) == wanted:
            return data
    raise Refused(f"{source.path}: tile {zoom}/{column}/{row} isn't what it was when it was mended")
