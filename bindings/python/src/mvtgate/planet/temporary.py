"""A table of one call, in a file of the system's that nobody else sees: on the disk, as far as memory isn't wanted for it."""
from __future__ import annotations

import sqlite3
from typing import Any, Tuple

from .endings import Unfinished


class Temporary:
    """It goes when it is closed. Unfinished where the system has no room for it: SQLite's own error would be a mistake in the program."""

    def __init__(self, table: str) -> None:
        self._database = sqlite3.connect("", isolation_level=None)
        for statement in ("PRAGMA synchronous = OFF", "PRAGMA journal_mode = OFF", table, "BEGIN"):
            self._database.execute(statement)

    def execute(self, statement: str, words: Tuple[Any, ...] = ()) -> sqlite3.Cursor:
        """Does a statement."""
        try:
            return self._database.execute(statement, words)
        except sqlite3.OperationalError as error:
            raise Unfinished(f"a temporary file of SQLite's: {error} (SQLITE_TMPDIR may name another folder for it)") from None

    def close(self) -> None:
        self._database.close()
