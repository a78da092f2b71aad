"""Pieces of work that are judged by several processes, whose verdicts come in the order of the pieces."""
from __future__ import annotations

import multiprocessing
import os
import threading
from collections import deque
from concurrent.futures import Future, ProcessPoolExecutor
from concurrent.futures.process import BrokenProcessPool
from typing import Deque, Iterator, List

from .answers import Verdict
from .judging import Settings, verdicts_of
from .pieces import Piece

# (how many pieces may wait for each process, so that a slow tile holds up no other process for long)
_AHEAD = 16


class WorkerGone(Exception):
    """A process that judged tiles was ended by somebody else, as the system does where memory is short."""


def _leave_with_parent() -> None:
    parent = multiprocessing.parent_process()
    if parent is not None:
        parent.join()
    os._exit(1)


def _begin() -> None:
    """A process that lost its parent, which was killed, ends too, even in the middle of a tile."""
    threading.Thread(target=_leave_with_parent, daemon=True).start()


def _judge(piece: Piece, settings: Settings) -> List[Verdict]:
    return list(verdicts_of(piece, settings))


def _verdicts(pool: ProcessPoolExecutor, pieces: Iterator[Piece], settings: Settings, most: int) -> Iterator[Verdict]:
    """With at most so many pieces that are begun."""
    begun: Deque[Future[List[Verdict]]] = deque()
    for piece in pieces:
        begun.append(pool.submit(_judge, piece, settings))
        if len(begun) == most:
            yield from begun.popleft().result()
    while begun:
        yield from begun.popleft().result()


def verdicts_by(jobs: int, pieces: Iterator[Piece], settings: Settings) -> Iterator[Verdict]:
    """A verdict on each tile, by so many processes. WorkerGone where one of them was ended."""
    # (a copy of this process has the library already, and ends at once by ctrl-C where this one does)
    context = multiprocessing.get_context("fork")
    pool = ProcessPoolExecutor(jobs, mp_context=context, initializer=_begin)
    is_done = False
    try:
        yield from _verdicts(pool, pieces, settings, jobs * _AHEAD)
        is_done = True
    except BrokenProcessPool:
        raise WorkerGone("a process that judged tiles was ended from outside; is there too little memory?") from None
    finally:
        # (what is in hand isn't waited for where nobody asks for its verdicts any more)
        for process in [] if is_done else multiprocessing.active_children():
            process.terminate()
        pool.shutdown(cancel_futures=True)
