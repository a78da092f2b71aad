"""Files that are there when all of them is."""
from __future__ import annotations

import contextlib
import os
from types import TracebackType
from typing import Optional, Type

from .endings import writing


class WholeFile:
    """A file of text, written whole or not at all. Unfinished, with its name, where it can't be written."""

    def __init__(self, path: str) -> None:
        self._path, self._part = path, f"{path}.part"

    def __enter__(self) -> WholeFile:
        with writing(self._path):
            # (of a path that is no text, bytes are written as JSON's \\udc80 and so on)
            self._file = open(self._part, "w", encoding="utf-8", errors="backslashreplace")
        return self

    def write(self, text: str) -> None:
        with writing(self._path):
            self._file.write(text)

    def __exit__(self, kind: Optional[Type[BaseException]], error: Optional[BaseException], trace: Optional[TracebackType]) -> None:
        try:
            if kind is None:
                with writing(self._path):
                    self._file.close()
                    os.replace(self._part, self._path)
        finally:
            # (what is left where it wasn't)
            with contextlib.suppress(OSError):
                self._file.close()
            with contextlib.suppress(OSError):
                os.remove(self._part)
