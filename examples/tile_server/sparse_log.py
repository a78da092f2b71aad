"""A log to which many requests may write at once, such as while the database is gone."""
from __future__ import annotations

import asyncio
import logging
from typing import Optional

_log = logging.getLogger(__name__)
_SECONDS = 1.0


class SparseLog:
    """Writes a line a second at most: the first at once, and at the end of the second the last of those that came meanwhile, with
    the number of those that were left out. Its methods are called in the event loop."""

    def __init__(self) -> None:
        # runs for a second after each line
        self._timer: Optional[asyncio.TimerHandle] = None
        self._waiting: Optional[str] = None
        self._left_out = 0

    def error(self, line: str) -> None:
        """Writes the line now, or at the end of the second where no other one comes."""
        self._left_out += self._waiting is not None
        self._waiting = line
        if self._timer is None:
            self._write_and_wait()

    def close(self) -> None:
        """Writes what waits, so that no count is lost."""
        if self._timer is not None:
            self._timer.cancel()
        self._write()

    def _write_and_wait(self) -> None:
        is_written = self._write()
        self._timer = asyncio.get_running_loop().call_later(_SECONDS, self._write_and_wait) if is_written else None

    def _write(self) -> bool:
        """Whether there was a line."""
        if self._waiting is None:
            return False
        left_out = f" ({self._left_out} such lines left out)" if self._left_out else ""
        _log.error("%s%s", self._waiting, left_out)
        self._waiting, self._left_out = None, 0
        return True
