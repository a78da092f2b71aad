"""mvtgate: judges Mapbox vector tiles in this process, by the proved library libmvtgate.

    import mvtgate

    fault = mvtgate.check(tile)          # None, or the tile's first Fault
    if fault:
        print(mvtgate.explain(fault))

A tile is its uncompressed bytes: bytes, bytearray, memoryview, mmap, or another object with contiguous bytes, which are read in
place. As long as a call runs nothing may write to them, no other thread or process either, nor cut the file that is mapped: of
bytes that may change hand over a copy, `bytes(it)`. All calls may be made by several threads at once; the interpreter's lock is
let go while the library works. They raise TypeError for an object that isn't of the type that is asked, and MemoryError where
memory was refused, after which they can be called again.

Each interpreter of a process may have the package, also one with a lock of its own (a subinterpreter of Python 3.12 or later), unless
it calls the library by ctypes, where nothing was compiled: then that is an ImportError in Python 3.12.
"""
from __future__ import annotations

import enum
import json
from typing import TYPE_CHECKING, List, Union

from . import _library
from ._advice import Advice
from ._dump import Tile
from ._explain import explain
from ._faults import EmptyTile, Fault, NotAFault, NotATile, RingEdge, fault_of_library
from ._formats import Format, format_of
from ._library import LibraryNotFound
from ._mended import Change, Mended, Refused, changes_of_library
from ._version import __version__

if TYPE_CHECKING:
    from _typeshed import ReadableBuffer

__all__ = [
    "Advice",
    "Change",
    "EmptyTile",
    "Fault",
    "Format",
    "LibraryNotFound",
    "Mended",
    "NotAFault",
    "NotATile",
    "Profile",
    "Refused",
    "RingEdge",
    "Tile",
    "__version__",
    "advise",
    "check",
    "confirm",
    "dump",
    "explain",
    "faults",
    "format_of",
    "mend",
    "version",
]


class Profile(enum.IntEnum):
    """What the polygons of a feature are held against: each by itself, or also against each other."""

    POLYGON = 0
    FEATURE = 1


_NO_FAULT = {
    _library.NOT_JSON: "the text is not JSON",
    _library.NOT_A_FAULT: "the text holds no fault",
    _library.OUT_OF_RANGE: "a number of the fault is out of range",
}


def _number_of(profile: Profile) -> int:
    if not isinstance(profile, Profile):
        raise TypeError(f"profile is a mvtgate.Profile, not {type(profile).__name__}")
    return profile


def check(tile: ReadableBuffer, profile: Profile = Profile.POLYGON, *, not_empty: bool = False, quick: bool = False) -> Union[Fault, None]:
    """None for a valid tile, else its first fault in the order that docs/SPECIFICATION.md of the repository gives.

    Zero bytes are a valid tile, and also what a failed read leaves: with `not_empty` they raise EmptyTile.

    With `quick` the time has a bound by both profiles, which is for whoever judges tiles of others. By
    Profile.FEATURE the fault may then be any meeting of the same feature, where edges of that feature meet. It is true all the
    same, and the same tiles are valid.
    """
    # (a call of `_number_of` would take as long as to judge a small tile)
    if not isinstance(profile, Profile):
        _number_of(profile)
    if not_empty and _library.is_empty(tile):
        raise EmptyTile("the tile has no bytes")
    text = _library.check(profile, tile, quick)
    return None if text is None else fault_of_library(text)


def faults(tile: ReadableBuffer, profile: Profile = Profile.POLYGON, *, quick: bool = False) -> List[Fault]:
    """All that is to be mended in a tile, in the order of the faults; an empty list for a valid tile.

    Each layer with a fault of its version or its name has that one, and each feature with any fault its first one, or with `quick`
    the one that `check` would name quickly. So the first of the list is that of `check`. Bytes that are no tile have one fault.
    """
    text = _library.faults(_number_of(profile), tile, quick)
    return [fault_of_library(it) for it in _library.lines_of(text)]


def mend(tile: ReadableBuffer, profile: Profile = Profile.POLYGON, *, drop: bool = False) -> Mended:
    """A valid tile in place of one whose polygons break the rules, with all else byte for byte as it was, and what was changed.

    Each vertex of a mended feature is within 2 units of one of its old edges, along both axes. A valid tile comes back as it is:
    the very object where it is bytes, else a copy; then nothing is changed.

    Refused, with its fault, where the tile has another fault than those of polygons (501 to 507, and 402 or 406 of a feature of
    polygons), or a feature can't be mended. With `drop` such features are left out instead, and are named among the changes.
    """
    status, mended, text = _library.mend(_number_of(profile), tile, drop)
    if status == _library.NO:
        raise Refused(fault_of_library(text))
    if status == _library.OK:
        return Mended(tile if isinstance(tile, bytes) else bytes(tile))
    return Mended(mended, changes_of_library(text))


def confirm(tile: ReadableBuffer, fault: Union[Fault, str], profile: Profile = Profile.POLYGON) -> bool:
    """Whether a fault, or the fault of a text, is true of a tile, by the separate checker, which shares no search with `check`.

    NotAFault where the text is no JSON, no fault, or one with a number out of range.
    """
    if not isinstance(fault, (Fault, str)):
        raise TypeError(f"fault is a mvtgate.Fault or a str, not {type(fault).__name__}")
    text = fault.text if isinstance(fault, Fault) else fault
    # (a str with half a surrogate pair is no UTF-8, and so no JSON)
    status = _library.confirm(_number_of(profile), tile, text.encode("utf-8", "surrogatepass"))
    if status in _NO_FAULT:
        raise NotAFault(_NO_FAULT[status])
    return status == _library.OK


def dump(tile: ReadableBuffer) -> Tile:
    """What a tile holds, whatever rules between its parts it breaks. NotATile where the bytes are no tile."""
    is_tile, text = _library.dump(tile)
    if not is_tile:
        raise NotATile(fault_of_library(text))
    loaded: Tile = json.loads(text)
    return loaded


def advise(tile: ReadableBuffer) -> List[Advice]:
    """What no rule forbids in a tile and may be a mistake; often nothing. NotATile where the bytes are no tile."""
    is_tile, text = _library.advise(tile)
    if not is_tile:
        raise NotATile(fault_of_library(text))
    return [Advice(**it) for it in json.loads(text)["advice"]]


def version() -> str:
    """The library's version, such as '0.1.0'."""
    number = _library.version()
    return f"{number // 10000}.{number // 100 % 100}.{number % 100}"
