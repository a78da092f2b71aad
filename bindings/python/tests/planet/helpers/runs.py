"""Runs of mvtgate-planet as processes of their own, and the databases and expected lines for them."""
from __future__ import annotations

import json
import os
import pathlib
import re
import signal
import sqlite3
import subprocess
import sys
import tempfile
import time
from dataclasses import dataclass
from typing import Any, Callable, Dict, Iterable, List, Optional, Protocol, Sequence, Tuple

from conftest import SAMPLES, TOP, Sample
from mvtgate import Fault, Profile

PROGRAM = [sys.executable, "-m", "mvtgate.planet"]
# the exit statuses, as docs/PLANET.md has them
VALID_STATUS, FAULTY, UNJUDGED, REFUSED, UNFINISHED = range(5)
TABLE = "CREATE TABLE tiles (zoom_level INTEGER, tile_column INTEGER, tile_row INTEGER, tile_data BLOB)"
INDEX = "CREATE UNIQUE INDEX tile_index ON tiles (zoom_level, tile_column, tile_row)"
# seconds that something may take on a machine which does much else
LONG = 1200.0
_SECONDS = re.compile(r'"seconds": [0-9.e-]+')
# sample tiles of which one fault alone is accepted, by the name of their file
SAMPLE: Dict[str, Sample] = {it.path.stem: it for it in SAMPLES if it.path.parent == TOP / "tiles"}
VALID = SAMPLE["point"].tile


@dataclass(frozen=True, order=True)
class Tile:
    """A tile of a database or folder. The row is from the north."""

    zoom: int
    column: int
    row: int
    stored: Any

    @property
    def tms_row(self) -> int:
        return (1 << self.zoom) - 1 - self.row


def write_database(path: pathlib.Path, tiles: Iterable[Tile], table: str = TABLE, index: str = INDEX) -> pathlib.Path:
    """An MBTiles file with these tiles in a table."""
    database = sqlite3.connect(path)
    database.executescript(f"PRAGMA synchronous=OFF; {table}; {index};")
    rows = ((it.zoom, it.column, it.tms_row, it.stored) for it in tiles)
    database.executemany("INSERT INTO tiles VALUES (?, ?, ?, ?)", rows)
    database.commit()
    database.close()
    return path


def environment(**more: str) -> Dict[str, str]:
    return {**os.environ, "PYTHONPATH": str(TOP / "bindings/python/src"), **more}


class Run:
    """A process of mvtgate-planet that writes into a folder."""

    def __init__(
        self, output: pathlib.Path, *words: object, env: Optional[Dict[str, str]] = None, program: Sequence[str] = PROGRAM
    ) -> None:
        self.output = output
        # (a file, so that it can be read while the program goes on)
        self._stderr = tempfile.TemporaryFile()
        self.process = subprocess.Popen(
            [*program, "--output", str(output), *map(str, words)],
            stdin=subprocess.DEVNULL,
            stdout=subprocess.PIPE,
            stderr=self._stderr,
            text=True,
            env=env or environment(),
            cwd=output.parent,
            start_new_session=True,
            # (a shell has what it starts in the background pass over interrupts)
            preexec_fn=lambda: signal.signal(signal.SIGINT, signal.SIG_DFL),
        )
        self.stdout = ""

    def end(self) -> Optional[int]:
        """Waits for its end, and that of all processes that write where it does, and returns its exit status."""
        try:
            self.stdout, _ = self.process.communicate(timeout=LONG)
        except subprocess.TimeoutExpired:
            self.process.kill()
            raise AssertionError(f"it didn't end: {self.stderr}") from None
        return self.process.returncode

    @property
    def stderr(self) -> str:
        """What it has said on standard error."""
        file = self._stderr.fileno()
        return os.pread(file, os.fstat(file).st_size, 0).decode()

    @property
    def said(self) -> List[str]:
        """The lines on standard error, without those of the progress bar."""
        lines = [it for it in re.split(r"[\r\n]+", self.stderr) if it.strip()]
        # (tqdm ends a bar that is left with no line's end of its own where something is written next)
        return [it for it in lines if not re.match(r" *\d+%\|", it)]

    def workers(self) -> List[int]:
        """The processes that judge: those that it has started with one of multiprocessing's calls."""
        return [it for it in children(self.process.pid) if b"spawn_main" in command(it)]

    def wait_for_lines(self, count: int) -> None:
        """Waits until the journal has so many lines of partitions."""
        wait_until(lambda: len(journal(self.output)) >= count or self.process.poll() is not None)
        assert self.process.poll() is None, self.stderr


def run(output: pathlib.Path, *words: object, env: Optional[Dict[str, str]] = None) -> Run:
    """A run that has ended."""
    it = Run(output, *words, env=env)
    it.end()
    return it


def wait_until(holds: Callable[[], bool]) -> None:
    until = time.monotonic() + LONG
    while not holds():
        assert time.monotonic() < until, "it took too long"
        time.sleep(0.005)


def children(process: int) -> List[int]:
    """All processes below one."""
    below = []
    for folder in pathlib.Path("/proc").glob("[0-9]*"):
        try:
            parent = int((folder / "stat").read_text().rpartition(")")[2].split()[1])
        except OSError:
            continue
        if parent == process:
            below += [int(folder.name), *children(int(folder.name))]
    return below


def command(process: int) -> bytes:
    """The words of a process, or nothing where it has gone."""
    try:
        return pathlib.Path(f"/proc/{process}/cmdline").read_bytes()
    except OSError:
        return b""


def has_gone(process: int) -> bool:
    """Whether a process has ended, also where nobody has asked for its status."""
    return command(process) == b""


def records(path: pathlib.Path) -> List[Dict[str, Any]]:
    """The lines of a file, but for one that is cut."""
    if not path.exists():
        return []
    return [json.loads(it) for it in path.read_bytes().split(b"\n")[:-1]]


def journal(output: pathlib.Path) -> List[Dict[str, Any]]:
    """What was found in each partition, from the journal."""
    return [it["judged"] for it in records(output / "journal.jsonl") if "judged" in it]


def faults_text(output: pathlib.Path) -> str:
    """faults.jsonl but for the times."""
    return _SECONDS.sub('"seconds": 0', (output / "faults.jsonl").read_text())


def place(source: pathlib.Path, tile: Tile) -> Dict[str, Any]:
    """How a line of faults.jsonl begins."""
    return {"source": str(source), "zoom": tile.zoom, "column": tile.column, "row": tile.row, "tms_row": tile.tms_row}


def fault_line(source: pathlib.Path, tile: Tile, size: int, line: str, names: Tuple[Optional[str], Optional[int]]) -> Dict[str, Any]:
    """The whole line of a tile with the fault of this line of `check`."""
    return {
        **place(source, tile),
        "size": size,
        "seconds": 0,
        "layer": names[0],
        "feature_id": names[1],
        "fault": json.loads(line),
        "sentence": Fault.from_text(line).sentence,
        "confirmed": True,
    }


def only_line(name: str, profile: Profile = Profile.POLYGON) -> str:
    """The one line of `check` that a sample tile may get."""
    [line] = SAMPLE[name].lines[profile]
    return line


def jsonl(lines: Iterable[Dict[str, Any]]) -> str:
    return "".join(f"{json.dumps(it, ensure_ascii=False)}\n" for it in lines)


class Expected(Protocol):
    """What is known of a database."""

    tiles: List[Tile]

    @property
    def text(self) -> str:
        """Its faults.jsonl."""


def expect_whole(planet: Expected, it: Run, status: int = 1) -> None:
    """A run that has come to its end, with what an undisturbed one finds, and each tile judged once."""
    assert it.process.returncode == status, it.stderr
    assert "Traceback" not in it.stderr
    assert faults_text(it.output) == planet.text
    partitions = [judged["partition"] for judged in journal(it.output)]
    assert len({json.dumps(partition) for partition in partitions}) == len(partitions)
    failed = sum("error" in line for line in records(it.output / "faults.jsonl") if line["size"] is None)
    assert sum(partition["tiles"] for partition in partitions) == len(planet.tiles) - failed
