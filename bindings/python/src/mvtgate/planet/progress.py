"""How far a run is: tiles, tiles a second, the time that is left, and how it stands."""
from __future__ import annotations

import contextlib
import importlib
import sys
from typing import Any, TextIO


class _Unheard:
    """A stream to which writing never fails: a run goes on where whoever read its progress has gone."""

    def __init__(self, stream: TextIO) -> None:
        self._stream = stream

    def __getattr__(self, name: str) -> Any:
        return getattr(self._stream, name)

    def write(self, text: str) -> None:
        with contextlib.suppress(OSError):
            self._stream.write(text)

    def flush(self) -> None:
        with contextlib.suppress(OSError):
            self._stream.flush()


class Progress:
    """A bar on standard error, by tqdm, or a line now and then where that is no terminal."""

    def __init__(self, tiles: int, done: int) -> None:
        tqdm: Any = importlib.import_module("tqdm").tqdm
        # (no thread beside this one, which would get the interrupts that this one lets wait; the bar is told each second how it stands)
        tqdm.monitor_interval = 0
        self._stream = _Unheard(sys.stderr)
        is_terminal = sys.stderr.isatty()
        self._bar: Any = tqdm(
            total=tiles,
            initial=done,
            unit=" tiles",
            unit_scale=True,
            dynamic_ncols=is_terminal,
            mininterval=0.5 if is_terminal else 10,
            miniters=0,
            file=self._stream,
        )

    def add(self, tiles: int, standing: str) -> None:
        """So many tiles more are done, and how the run stands, which is shown behind the bar."""
        self._bar.set_postfix_str(standing, refresh=False)
        self._bar.update(tiles)

    def tell(self, text: str) -> None:
        """A line for the user, before that of the bar."""
        self._bar.write(f"mvtgate-planet: {text}", file=self._stream)

    def close(self) -> None:
        self._bar.close()
