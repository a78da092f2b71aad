"""The C library libmvtgate: where it is found, and its calls, which the extension `_native` makes, or where that isn't there ctypes."""
from __future__ import annotations

import os
import pathlib
import re
from typing import TYPE_CHECKING, Callable, Iterator, List, Optional, Protocol, Tuple

from ._statuses import MENDED, NO, NOT_A_FAULT, NOT_JSON, OK, OUT_OF_RANGE

if TYPE_CHECKING:
    from _typeshed import ReadableBuffer

# (the statuses, of which others ask here)
__all__ = ["MENDED", "NO", "NOT_A_FAULT", "NOT_JSON", "OK", "OUT_OF_RANGE"]

_FOLDER = pathlib.Path(__file__).resolve().parent
# (in a checkout, where tools/library puts it)
_CHECKOUT = _FOLDER.parents[3]


class LibraryNotFound(ImportError):
    """libmvtgate is nowhere, or what is there isn't this library."""


class Calls(Protocol):
    """What `Library` of `_native.pyi` has, which says what each of these answers."""

    def check(self, profile: int, tile: ReadableBuffer, is_quick: bool, /) -> Optional[str]: ...

    def faults(self, profile: int, tile: ReadableBuffer, is_quick: bool, /) -> str: ...

    def dump(self, tile: ReadableBuffer, /) -> Tuple[bool, str]: ...

    def advise(self, tile: ReadableBuffer, /) -> Tuple[bool, str]: ...

    def mend(self, profile: int, tile: ReadableBuffer, is_dropping: bool, /) -> Tuple[int, bytes, str]: ...

    def confirm(self, profile: int, tile: ReadableBuffer, text: bytes, /) -> int: ...

    def head(self, tile: ReadableBuffer, most: int, /) -> bytes: ...

    def version(self) -> int: ...


def _candidates() -> List[str]:
    """Where the library may be: the first of these that exists is taken."""
    named = os.environ.get("MVTGATE_LIBRARY")
    if named:
        return [named]
    places = [_FOLDER / "libmvtgate.so"]
    if (_CHECKOUT / "bindings/faults.json").exists():
        places.append(_CHECKOUT / "bindings/c/out/libmvtgate.so")
    # (the last one has no folder, so that the system's loader looks for it)
    return [*(str(it) for it in places if it.exists()), "libmvtgate.so.0"]


def _caller() -> Callable[[str], Calls]:
    """What loads a library: the extension, unless there is none, as in a source that nothing was compiled of."""
    if not os.environ.get("MVTGATE_CTYPES"):
        try:
            from ._native import Library

            return Library
        except ImportError:
            pass
    from ._by_ctypes import Library as LibraryByCtypes

    return LibraryByCtypes


def _load() -> Calls:
    name = _candidates()[0]
    try:
        return _caller()(name)
    except OSError as error:
        raise LibraryNotFound(f"mvtgate: cannot load the library: {error} (MVTGATE_LIBRARY may name it)") from error
    except AttributeError as error:
        raise LibraryNotFound(f"mvtgate: {name} has no {error}") from error


calls = _load()
# (bound once, since looking a method up would take as long as to judge some tiles)
check, faults, dump, advise = calls.check, calls.faults, calls.dump, calls.advise
mend, confirm, head, version = calls.mend, calls.confirm, calls.head, calls.version


def is_empty(tile: ReadableBuffer) -> bool:
    """Whether an object has no bytes."""
    return not head(tile, 1)


def lines_of(text: str) -> Iterator[str]:
    """The lines of a text of faults without their ends, one at a time, since there may be millions."""
    return (it.group() for it in re.finditer(".+", text))
