"""Runs of the command, and the tiles that they are given."""
from __future__ import annotations

import json
import os
import pathlib
import sqlite3
import subprocess
import sys
import time
from typing import Any, Callable, Dict, List, Tuple

from conftest import TOP

POINT = TOP / "tiles/point.mvt"
CROSSING = TOP / "tiles/crossing_edges.mvt"
OVERLAP = TOP / "tiles/polygons_that_overlap.mvt"
PNG = b"\x89PNG\r\n\x1a\n\x00\x00\x00\rIHDR"
INDEX = "CREATE UNIQUE INDEX tile_index ON tiles (zoom_level, tile_column, tile_row)"
# seconds that something may take on a machine which does much else
LONG = 1200.0
EMPTY = "it is empty; --allow-empty takes that for a valid tile"

Run = subprocess.CompletedProcess[str]


def environment(**more: Any) -> Dict[str, str]:
    """That of a command which runs this package."""
    return {**os.environ, "PYTHONPATH": ":".join(sys.path), **{key: str(it) for key, it in more.items()}}


def command(*words: Any) -> List[str]:
    return [sys.executable, "-m", "mvtgate", "check", *map(os.fspath, map(_word, words))]


def _word(it: Any) -> Any:
    return it if isinstance(it, (bytes, os.PathLike)) else str(it)


def run(*words: Any, **more: Any) -> Run:
    """The command with these words, and what it said."""
    return subprocess.run(command(*words), env=environment(), capture_output=True, text=True, **more)


def json_lines(out: str) -> List[Dict[str, Any]]:
    return [json.loads(it) for it in out.splitlines()]


def last_line(said: Run) -> str:
    return said.stderr.splitlines()[-1]


def mbtiles(path: pathlib.Path, tiles: Dict[Tuple[int, int, int], Any], index: str = INDEX) -> pathlib.Path:
    """An MBTiles file with tiles by zoom, column and row from the north, of which the file counts rows from the south."""
    rows = [(zoom, column, (1 << zoom) - 1 - row, stored) for (zoom, column, row), stored in tiles.items()]
    with sqlite3.connect(path) as database:
        database.execute("CREATE TABLE tiles (zoom_level INTEGER, tile_column INTEGER, tile_row INTEGER, tile_data BLOB)")
        database.execute(index)
        database.executemany("INSERT INTO tiles VALUES (?, ?, ?, ?)", rows)
    database.close()
    return path


def children(process: int) -> List[int]:
    """The processes that a process began and that haven't ended."""
    path = pathlib.Path(f"/proc/{process}/task/{process}/children")
    return list(map(int, path.read_text().split())) if path.exists() else []


def wait_for(holds: Callable[[], bool], seconds: float = LONG) -> None:
    """Waits until this holds."""
    last = time.monotonic() + seconds
    while not holds():
        assert time.monotonic() < last
        time.sleep(0.05)


# writes the most kilobytes that it had, which for this process would count those of its parent too
PEAK = """
import re, sys
from mvtgate.checking.command import main
status = main(sys.argv[1:])
print(re.search(r"VmHWM:\\s*(\\d+) kB", open("/proc/self/status").read())[1], file=sys.stderr)
"""


def peak(*words: object) -> int:
    """The most kilobytes that a run had."""
    command_words = [sys.executable, "-c", PEAK, *map(str, words)]
    return int(last_line(subprocess.run(command_words, env=environment(), stdout=subprocess.DEVNULL, stderr=subprocess.PIPE, text=True)))
