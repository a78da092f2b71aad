"""The calls of the extension that refused.py and every_call.py make."""
from __future__ import annotations

import ctypes
import pathlib
from functools import partial
from typing import Any, Callable, Iterator, List, NamedTuple

from mvtgate._native import Library

# what some of them raise
RAISED = (OSError, TypeError, RuntimeError)


class Case(NamedTuple):
    """A call on a tile, and what has the stand-in answer as it is to. It has no function of Python's, which would ask for memory, too."""

    call: Callable[[], object]
    tile: bytearray
    prepare: Callable[[], object]


def _calls_of(calls: Any, tile: bytearray, fault: bytes) -> Iterator[Callable[[], object]]:
    yield partial(calls.check, 0, tile, False)
    yield partial(calls.check, 1, tile, True)
    yield partial(calls.faults, 0, tile, False)
    yield partial(calls.mend, 0, tile, True)
    yield partial(calls.dump, tile)
    yield partial(calls.advise, tile)
    yield partial(calls.confirm, 0, tile, fault)
    yield partial(calls.head, tile, 1024)
    yield partial(calls.check, 0, "text", False)
    yield partial(calls.check, 0, memoryview(bytes(tile))[::2], False)
    yield partial(calls.check, 0, tile)


def _real_cases(library: str, paths: List[str]) -> Iterator[Case]:
    calls = Library(library)
    for it in paths:
        tile = bytearray(pathlib.Path(it).read_bytes())
        fault = (calls.check(0, tile, False) or "{}").encode()
        yield from (Case(call, tile, int) for call in _calls_of(calls, tile, fault))


def _other_cases(stand_in: str) -> Iterator[Case]:
    """Texts and tiles for which there is no room in the first call, and a status that is no answer."""
    calls, variables, tile = Library(stand_in), ctypes.CDLL(stand_in), bytearray(b"tile")

    def set_answer(status: int, wanted: int, wanted_out: int) -> None:
        ctypes.c_int.in_dll(variables, "answer").value = status
        ctypes.c_size_t.in_dll(variables, "wanted").value = wanted
        ctypes.c_size_t.in_dll(variables, "wanted_out").value = wanted_out

    for values in ((8, 70_000, 70_000), (1, 70_000, 0), (9, 0, 0)):
        for call in _calls_of(calls, tile, b"{}"):
            yield Case(call, tile, partial(set_answer, *values))


def cases(library: str, stand_in: str, tiles: List[str]) -> List[Case]:
    """Those on tiles by the real library, and those by one that stands in its place."""
    return [*_real_cases(library, tiles), *_other_cases(stand_in)]
