"""The tiles that words name: of files, folders, MBTiles files, PMTiles archives and standard input, in pieces and in an order that stays the same.

Nothing is kept of what was found but the names in one folder at a time.
"""
from __future__ import annotations

import contextlib
import os
import stat
import sys
from typing import Iterable, Iterator, List, NamedTuple, Set, Union

from .._files import ARCHIVES, ENDINGS, LIMIT
from ..planet.sources import NotASource, SourceChanged, open_source
from ..planet.sources.pmtiles import MAGIC, is_address
from .names import INPUT
from .pieces import ArchivePart, Failed, Files, Given, Piece, reason

# how many tiles a piece has at most: few, so that each of several processes has its share of a small folder
_MOST_FILES = 8
_MOST_IN_ARCHIVE = 32
_SQLITE = b"SQLite format 3\0"
# (the header of a PMTiles archive)
_HEAD = 127
_WANTED = (*ENDINGS, *ARCHIVES)

# (a text is the path of a file with one tile)
Found = Union[str, Piece]


class _Listed(NamedTuple):
    """The names in a folder. `others` are those of files that are links or no regular files."""

    files: List[str]
    others: Set[str]
    folders: List[str]


def _is_folder(entry: "os.DirEntry[str]") -> bool:
    try:
        return entry.is_dir()
    except OSError:
        # (a link that leads to itself)
        return False


def _listed(folder: str) -> _Listed:
    listed = _Listed([], set(), [])
    with os.scandir(folder) as entries:
        for entry in entries:
            if entry.is_dir(follow_symlinks=False):
                listed.folders.append(entry.name)
            elif entry.name.endswith(_WANTED) and not _is_folder(entry):
                listed.files.append(entry.name)
                if not entry.is_file(follow_symlinks=False):
                    listed.others.add(entry.name)
    listed.files.sort()
    listed.folders.sort(reverse=True)
    return listed


def _looked_at(path: str) -> Iterator[Found]:
    """A file of a folder that is a link, or no regular file, from which a read might never return."""
    try:
        is_regular = stat.S_ISREG(os.stat(path).st_mode)
    except OSError as error:
        yield Failed(path, reason(path, error))
        return
    if is_regular:
        yield from _of_file(path)
    else:
        yield Failed(path, "it is no regular file")


def _of_listed(folder: str, listed: _Listed) -> Iterator[Found]:
    for name in listed.files:
        path = os.path.join(folder, name)
        yield from _looked_at(path) if name in listed.others else _of_file(path)


def _below(folder: str) -> Iterator[Found]:
    """The tiles of a folder, then those of its folders, each by name. Links to folders aren't followed."""
    waiting = [folder]
    while waiting:
        where = waiting.pop()
        try:
            listed = _listed(where)
        except OSError as error:
            yield Failed(where, reason(where, error))
            continue
        waiting += (os.path.join(where, name) for name in listed.folders)
        yield from _of_listed(where, listed)


def _of_folder(folder: str) -> Iterator[Found]:
    is_empty = True
    for it in _below(folder):
        is_empty = False
        yield it
    if is_empty:
        yield Failed(folder, f"the folder has no file that ends with {', '.join(_WANTED)}")


def _of_archive(path: str) -> Iterator[Found]:
    """An MBTiles file or a PMTiles archive. Its faults name tiles by z/x/y."""
    try:
        # (there may be more archives than files that may be open)
        with contextlib.closing(open_source(path)) as source:
            stamp = source.stamp()
            if not source.survey():
                raise NotASource("it has no tiles")
            for partition in source.partitions(0, _MOST_IN_ARCHIVE):
                source.check(stamp)
                yield ArchivePart(path, stamp, partition)
    except (NotASource, SourceChanged, OSError) as error:
        yield Failed(path, reason(path, error))


def _of_file(path: str) -> Iterator[Found]:
    if path.endswith(ARCHIVES):
        yield from _of_archive(path)
    else:
        yield path


def _is_archive(path: str) -> bool:
    try:
        # (a pipe isn't read: what was read of it would be gone)
        if not os.path.isfile(path):
            return False
        with open(path, "rb") as file:
            head = file.read(_HEAD)
            return head.startswith(_SQLITE) or (head.startswith(MAGIC) and len(head) == _HEAD)
    except OSError:
        return False


def _of_input() -> Piece:
    try:
        if sys.stdin is None:
            return Failed(INPUT, "it is closed")
        return Given(INPUT, sys.stdin.buffer.read(LIMIT + 1))
    except OSError as error:
        return Failed(INPUT, reason(INPUT, error))
    except MemoryError:
        return Failed(INPUT, "out of memory")


def _of_word(word: str) -> Iterator[Found]:
    if word == INPUT:
        yield _of_input()
    elif os.path.isdir(word):
        yield from _of_folder(word)
    elif is_address(word) or _is_archive(word):
        yield from _of_archive(word)
    else:
        yield from _of_file(word)


def pieces_of(words: Iterable[str]) -> Iterator[Piece]:
    """What the words name, in their order."""
    files: List[str] = []
    for it in (found for word in words for found in _of_word(word)):
        if isinstance(it, str):
            files.append(it)
        if files and (not isinstance(it, str) or len(files) == _MOST_FILES):
            yield Files(files)
            files = []
        if not isinstance(it, str):
            yield it
    if files:
        yield Files(files)


def count(words: List[str]) -> int:
    """How many tiles the words name."""
    named = [word for word in words if word != INPUT]
    return len(words) - len(named) + sum(piece.size for piece in pieces_of(named))
