"""Refuses each request for memory of each call of the extension in turn, with refusing.c preloaded: refused.py LIBRARY STAND_IN TILE..

A call then answers what it answers else, or raises MemoryError (or what it raises else); it lets the tile's bytes go, and leaves no
block behind. One line: how many requests were refused.
"""
from __future__ import annotations

import ctypes
import gc
import itertools
import sys
from typing import List

from extension_cases import RAISED, Case, cases

ROUNDS, MOST_TIMES = 20, 20

hooks = ctypes.CDLL(None)
hooks.refuse.argtypes, hooks.refuse.restype = [ctypes.c_long], ctypes.c_long
hooks.blocks_in_use.restype = ctypes.c_long


def stop() -> int:
    """Has no request be refused any more, and says how many were left."""
    while True:
        try:
            left: int = hooks.refuse(0)
            return left
        except (MemoryError, ctypes.ArgumentError):
            # (it was this call's own request)
            pass


def answer_of(it: Case, request: int) -> object:
    """What the call returns, or the type of what it raises, where this request is refused; none where it is 0."""
    try:
        hooks.refuse(request)
        return it.call()
    except MemoryError:
        return MemoryError
    except RAISED as error:
        return type(error)


def sweep(it: Case) -> int:
    """How many requests were refused, each in a call of its own."""
    it.prepare()
    wanted = answer_of(it, 0)
    for request in itertools.count(1):
        answer, left = answer_of(it, request), stop()
        # (bytes that are still lent couldn't be moved)
        it.tile.append(0)
        it.tile.pop()
        assert answer in (wanted, MemoryError), (it, request, answer)
        if left:
            return request - 1
    raise AssertionError


def left_behind(every: List[Case]) -> int:
    """How many blocks more there are after some rounds over all cases."""
    before: int = hooks.blocks_in_use()
    for it in every * ROUNDS:
        sweep(it)
    gc.collect()
    after: int = hooks.blocks_in_use()
    return after - before


def main() -> None:
    library, stand_in, *tiles = sys.argv[1:]
    every = cases(library, stand_in, tiles)
    refused = sum(map(sweep, every))
    # (the interpreter keeps some for later, and ever fewer; a block that one call leaves behind is left in each round)
    assert any(left_behind(every) < ROUNDS for _ in range(MOST_TIMES)), "blocks are left behind"
    print(refused, "requests were refused")


main()
