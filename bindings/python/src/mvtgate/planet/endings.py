"""How a run ends: its exit status, and the errors that say why it can't go on."""
from __future__ import annotations

import contextlib
import enum
import errno
import os
from typing import Iterator, Optional, Union

# a disk that is full, or a user's share of it
_NO_ROOM = (errno.ENOSPC, errno.EDQUOT)


class Status(enum.IntEnum):
    """The exit statuses. After UNFINISHED the same words go on; after REFUSED they won't."""

    VALID = 0
    FAULTY = 1
    UNJUDGED = 2
    REFUSED = 3
    UNFINISHED = 4
    BROKEN = 70


class Ending(Exception):
    """Why a run can't go on."""

    status: Status


class Refused(Ending):
    """The same words won't get on with it. Others may, or another file."""

    status = Status.REFUSED


class Unfinished(Ending):
    """It can't go on now. What is in the journal stands, and the same words go on with it."""

    status = Status.UNFINISHED


def reason_of(error: BaseException) -> str:
    """An error in words for a user, with the file that it is about."""
    if isinstance(error, OSError) and error.strerror:
        return f"{error.filename}: {error.strerror}" if error.filename else error.strerror
    return str(error) or "an error that says nothing of itself"


def ending_of(error: OSError, path: Optional[str] = None) -> Ending:
    """What an error of the system is for a run that hasn't begun: it goes on when a full disk has room, and else not by itself."""
    if path is not None and not error.filename:
        error.filename = path
    return Unfinished(reason_of(error)) if error.errno in _NO_ROOM else Refused(reason_of(error))


@contextlib.contextmanager
def writing(path: Union[str, os.PathLike[str]]) -> Iterator[None]:
    """Unfinished, with the file's name, where a file of a run that has begun can't be written."""
    try:
        yield
    except OSError as error:
        raise Unfinished(f"{os.fspath(path)}: {error.strerror or error}") from None
