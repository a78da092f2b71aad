"""Tiles that end the worker that judges or confirms them, large and damaged ones among small ones, and workers that go at the worst time."""
from __future__ import annotations

import gzip
import os
import pathlib
import signal
import sys
from typing import List

import pytest

from mvtgate._files import LIMIT
from planet.conftest import Gate, Shimmed
from planet.helpers.planets import Planet, full_zoom
from planet.helpers.runs import SAMPLE, VALID, Run, environment, expect_whole, journal, run, wait_until

ENDS_CHECK, ENDS_CONFIRM, SLOW_CONFIRM = b"\xff\xff!!kill", b"\xff\xff!!conf", b"\xff\xff!!slow"
# the program, in which faults wait for another worker as long as it takes
PATIENT = [sys.executable, "-c", "import sys, mvtgate.planet.schedule as it; it._PATIENCE = 1e9; import mvtgate.planet.__main__ as m; sys.exit(m.main())"]
ENDED = "the worker that judged it ended, each time"


def with_killers(path: pathlib.Path, killers: List[int]) -> Planet:
    """64 tiles, of which some end the worker that judges them."""
    planet = full_zoom(path, 3, [(at, ENDS_CHECK) for at in killers])
    for at in killers:
        planet.blame(3, at >> 3, at % 8, None, ENDED)
    return planet


def test_tiles_that_end_their_worker(tmp_path: pathlib.Path, shimmed: Shimmed) -> None:
    planet = with_killers(tmp_path / "planet.mbtiles", [21])
    it = run(tmp_path / "out", planet.path, "--workers", 2, "--partition", 16, env=shimmed(0))
    expect_whole(planet, it, status=2)
    faulty = len(planet.lines) - 1
    assert it.said[-1].startswith(f"64 tiles: {63 - faulty} valid, {faulty} with a fault, 1 not judged; see ")


def test_tiles_beside_those(tmp_path: pathlib.Path, shimmed: Shimmed, scheduler: str) -> None:
    """Here a worker that ends once is enough to be taken for the reason, also of all that it had beside."""
    planet = with_killers(tmp_path / "planet.mbtiles", [8, 9, 63])
    words = [planet.path, "--scheduler", scheduler, "--partition", 16]
    expect_whole(planet, run(tmp_path / "out", *words), status=2)
    # (by a library that doesn't end, all that was left is judged, and nothing else)
    done = len(journal(tmp_path / "out"))
    harmless = environment(MVTGATE_LIBRARY=shimmed(0)["SHIM_LIBRARY"])
    again = run(tmp_path / "out", planet.path, "--workers", 1, "--partition", 16, env=harmless)
    assert len(journal(tmp_path / "out")) == done + 3 and "not judged" not in again.said[-1]


def test_fault_that_ends_its_checker(tmp_path: pathlib.Path, scheduler: str) -> None:
    """The fault is reported, without an answer."""
    planet = full_zoom(tmp_path / "planet.mbtiles", 3, [(17, ENDS_CONFIRM)])
    planet.lines[3, 2, 1]["confirmed"] = None
    it = run(tmp_path / "out", planet.path, "--scheduler", scheduler, "--partition", 16)
    expect_whole(planet, it, status=2)
    assert it.said[-1].startswith(f"64 tiles: 57 valid, {len(planet.lines)} with a fault, 1 not confirmed; see ")


def test_two_tiles_at_one_place_that_end_their_worker(tmp_path: pathlib.Path, scheduler: str) -> None:
    """They can't be told apart, so neither is judged."""
    planet = Planet(tmp_path / "planet.mbtiles")
    for row in range(3):
        planet.add(2, 1, row, None)
    planet.add(2, 1, 1, None, mark=ENDS_CHECK)
    planet.blame(2, 1, 1, None, ENDED)
    planet.write(is_unique=False)
    it = run(tmp_path / "out", planet.path, "--scheduler", scheduler)
    assert it.process.returncode == 2 and it.said[-1].startswith("4 tiles: 2 valid, 0 with a fault, 2 not judged; see ")
    assert (tmp_path / "out/faults.jsonl").read_text() == 2 * planet.text


def test_killed_while_it_confirms(tmp_path: pathlib.Path, shimmed: Shimmed, gate: Gate) -> None:
    """Nobody but the other worker may confirm it. When that is killed, the one that comes in its place does."""
    planet = full_zoom(tmp_path / "planet.mbtiles", 2, [(8, SLOW_CONFIRM)])
    it = Run(tmp_path / "out", planet.path, "--workers", 2, env=shimmed(0), program=PATIENT)
    wait_until(lambda: len(gate.processes) == 1)
    os.kill(gate.processes[0], signal.SIGKILL)
    wait_until(lambda: len(gate.processes) == 2)
    gate.open()
    it.end()
    expect_whole(planet, it)
    [judged] = journal(it.output)
    assert judged["judged_by"] != judged["confirmed_by"]
    assert len(set(gate.processes)) == 2


def padded(tile: bytes, size: int) -> bytes:
    """A tile with a field that no reader knows, so that it has this many bytes."""
    # (field 100, of which four bytes say how long it is)
    length = size - len(tile) - 6
    head = b"\xa2\x06" + bytes([length & 127 | 128, length >> 7 & 127 | 128, length >> 14 & 127 | 128, length >> 21])
    return tile + head + bytes(length)


@pytest.mark.parametrize("name", ["crossing_edges", None])
def test_tile_of_64_mib(tmp_path: pathlib.Path, scheduler: str, name: str) -> None:
    """As it is, and as gzip, among small ones and damaged ones."""
    planet = full_zoom(tmp_path / "planet.mbtiles", 2)
    bare = SAMPLE[name].tile if name else VALID
    large = padded(bare, LIMIT)
    assert len(large) == LIMIT
    planet.put(3, 1, 1, large, LIMIT, name)
    planet.put(3, 1, 2, gzip.compress(large, 1), LIMIT, name)
    cut = gzip.compress(bare)[:-9]
    planet.fail(3, 2, 2, cut, len(cut), "the gzip stream is cut")
    planet.path.unlink()
    planet.write()
    it = run(tmp_path / "out", planet.path, "--scheduler", scheduler)
    expect_whole(planet, it, status=2)
    assert sorted(one["size"] for judged in journal(it.output) for one in judged["slowest"])[-2:] == [LIMIT, LIMIT]
    # (no bytes of such a tile are in them)
    assert all((it.output / name).stat().st_size < 1_000_000 for name in ("journal.jsonl", "faults.jsonl", "report.html"))
