"""What each worker of this machine begins with, by Dask's `preload`: the program ends it, and speaks for it.

An interrupt of a terminal, or of a service that is stopped, goes to all processes at once. A worker that ended by itself would be
started again while the program ends, and Dask would write pages of what became of it.
"""
from __future__ import annotations

import os
import signal
from typing import Any

# how long a worker stays that was told to end, in seconds; then nobody is there who would end it
_STAYS = 5


def _end_later(*_: Any) -> None:
    # (its signal ends a process)
    signal.alarm(_STAYS)


def dask_setup(_: object) -> None:
    """Called in the main thread of a worker."""
    signal.signal(signal.SIGINT, signal.SIG_IGN)
    signal.signal(signal.SIGTERM, _end_later)
    signal.pthread_sigmask(signal.SIG_UNBLOCK, (signal.SIGINT, signal.SIGTERM))
    nowhere = os.open(os.devnull, os.O_WRONLY)
    os.dup2(nowhere, 2)
    os.close(nowhere)
