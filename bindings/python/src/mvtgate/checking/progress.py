"""A progress bar on standard error."""
from __future__ import annotations

import contextlib
import importlib
import sys
from typing import Any, ContextManager, Optional


class Bar:
    """Tiles that are judged, on standard error where that is a terminal and tqdm is installed. Else it shows nothing."""

    def __init__(self, tqdm: Optional[Any], total: int) -> None:
        self._bar: Any = None
        if tqdm is not None:
            # (no thread beside this one, since processes are copies of this one)
            tqdm.monitor_interval = 0
            self._bar = tqdm(total=total, unit=" tiles", miniters=1, dynamic_ncols=True, leave=False, file=sys.stderr)

    def add(self, tiles: int) -> None:
        """So many more tiles are judged."""
        if self._bar is not None:
            self._bar.update(tiles)

    def aside(self) -> ContextManager[None]:
        """While a line is written the bar is taken away."""
        if self._bar is None:
            return contextlib.nullcontext()
        aside: ContextManager[None] = type(self._bar).external_write_mode()
        return aside

    def close(self) -> None:
        if self._bar is not None:
            self._bar.close()


def tqdm_of_terminal() -> Optional[Any]:
    """tqdm, where there is one and standard error is a terminal."""
    if sys.stderr is None or not sys.stderr.isatty():
        return None
    with contextlib.suppress(ImportError):
        return importlib.import_module("tqdm").tqdm
    return None
