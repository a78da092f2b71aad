"""A database that changes while it is judged, and a disk that is full."""
from __future__ import annotations

import os
import pathlib
import shutil
import sqlite3
import subprocess
from typing import Callable

import pytest

from planet.conftest import Gate
from planet.helpers.planets import Planet, full_zoom
from planet.helpers.runs import REFUSED, UNFINISHED, VALID, Run, expect_whole, faults_text, journal, run


def update(path: pathlib.Path) -> None:
    """A faulty tile is mended, so that the file's size stays."""
    database = sqlite3.connect(path)
    mended = database.execute("UPDATE tiles SET tile_data = ? WHERE tile_column = 15 AND tile_row = 4", (VALID,))
    assert mended.rowcount == 1
    database.commit()
    database.close()


def replace(path: pathlib.Path) -> None:
    """Another file is put in its place, as programs do that write a file anew."""
    other = path.with_suffix(".new")
    shutil.copy(path, other)
    update(other)
    os.replace(other, path)


def touch(path: pathlib.Path) -> None:
    """Some bytes change, and neither the size nor the head of the file (as by a log that is written into it)."""
    with open(path, "r+b") as file:
        file.seek(-1, os.SEEK_END)
        last = file.read(1)
        file.seek(-1, os.SEEK_END)
        file.write(last)


def remove(path: pathlib.Path) -> None:
    path.unlink()


@pytest.fixture(scope="module")
def slow_planet(tmp_path_factory: pytest.TempPathFactory) -> Planet:
    """256 tiles, of which one of the last waits at the gate."""
    return full_zoom(tmp_path_factory.mktemp("slow") / "planet.mbtiles", 4, [(243, b"\xff\xff!!gate")])


@pytest.mark.parametrize("change", [update, replace, touch, remove])
def test_changes(
    slow_planet: Planet, tmp_path: pathlib.Path, scheduler: str, gate: Gate, change: Callable[[pathlib.Path], None]
) -> None:
    path = tmp_path / "planet.mbtiles"
    shutil.copy(slow_planet.path, path)
    # (with workers that have the file open when the next run comes)
    words = [path, "--scheduler", scheduler, "--partition", 8]
    it = Run(tmp_path / "out", *words)
    it.wait_for_lines(5)
    change(path)
    gate.open()
    assert it.end() == REFUSED
    assert len(it.said) == 1 and f": {path}" in it.said[0], it.stderr
    assert not (it.output / "faults.jsonl").exists() and "isn't the file that it was" in it.said[0] or change is remove
    done = len(journal(it.output))
    again = run(it.output, *words)
    assert again.process.returncode == REFUSED and len(again.said) == 1
    assert ("there is no such file" if change is remove else "the tiles have changed") in again.said[0]
    assert len(journal(it.output)) == done
    if change is replace:
        anew = run(it.output, *words, "--anew")
        assert anew.process.returncode == 1, anew.stderr
        assert faults_text(it.output) == run_of(path, tmp_path / "other", scheduler)


def run_of(path: pathlib.Path, output: pathlib.Path, scheduler: str) -> str:
    """What a run finds that knows nothing of the other one, by parts of another size."""
    it = run(output, path, "--scheduler", scheduler)
    assert it.process.returncode == 1
    return faults_text(output)


def test_full_disk(planet: Planet, tmp_path: pathlib.Path, small_disk: pathlib.Path, scheduler: str) -> None:
    words = [planet.path, "--scheduler", scheduler, "--partition", 16]
    it = run(small_disk / "out", *words)
    assert it.process.returncode == UNFINISHED
    # (whichever of the two it was that had no room)
    reasons = [f"{it.output / 'journal.jsonl'}: No space left on device; what was written before stands", f"{it.output / 'journal.bin'}: No space left on device"]
    assert [line.removeprefix("mvtgate-planet: ") for line in it.said] in [[reason] for reason in reasons]
    done = journal(it.output)
    assert 5 < len(done) < 64
    # (still full)
    assert run(it.output, *words).process.returncode == UNFINISHED
    subprocess.run(["mount", "-o", "remount,size=8m", str(small_disk)], check=True)
    expect_whole(planet, run(it.output, *words))
    assert journal(it.output)[: len(done)] == done


def test_full_disk_under_the_results(planet: Planet, small_disk: pathlib.Path, scheduler: str) -> None:
    """There was room for the journal alone. The next run has nothing to judge."""
    subprocess.run(["mount", "-o", "remount,size=64k", str(small_disk)], check=True)
    words = [planet.path, "--scheduler", scheduler, "--partition", 1024]
    it = run(small_disk / "out", *words)
    assert it.process.returncode == UNFINISHED
    assert it.said in ([f"mvtgate-planet: {it.output / name}: No space left on device"] for name in ("faults.jsonl", "faults.geojson"))
    assert sorted(path.name for path in it.output.iterdir()) == ["journal.bin", "journal.jsonl"]
    subprocess.run(["mount", "-o", "remount,size=8m", str(small_disk)], check=True)
    expect_whole(planet, run(it.output, *words))
