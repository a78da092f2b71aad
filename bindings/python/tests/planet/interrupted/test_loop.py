"""The loop of docs/PLANET.md that goes on with a run, as it stands there."""
from __future__ import annotations

import os
import pathlib
import re
import shutil
import signal
import subprocess
import sys
from typing import Optional

import pytest

from conftest import TOP
from planet.conftest import Gate
from planet.helpers.planets import Planet
from planet.helpers.runs import FAULTY, LONG, REFUSED, UNFINISHED, VALID, VALID_STATUS, Tile, environment, faults_text, journal, wait_until, write_database


def loop() -> str:
    """The block of the document that calls the program and looks at its status."""
    text = (TOP / "docs/PLANET.md").read_text()
    [found] = [it for it in re.findall(r"```sh\n(.*?)```", text, re.DOTALL) if "mvtgate-planet planet.mbtiles" in it and "status" in it]
    return str(found)


class Loop:
    """The loop in a folder, with planet.mbtiles in it. Where it sleeps, it does at once what `mend` says, and notes the seconds."""

    def __init__(self, folder: pathlib.Path, mend: str = "true", env: Optional[dict[str, str]] = None) -> None:
        self.folder, programs = folder, folder / "bin"
        programs.mkdir()
        self._write(programs / "mvtgate-planet", f'exec {sys.executable} -m mvtgate.planet "$@"')
        self._write(programs / "sleep", f'echo "$1" >>{folder}/slept\n{mend}')
        self.process = subprocess.Popen(
            ["bash", "-c", loop()],
            cwd=folder,
            env={**(env or environment()), "PATH": f"{programs}:{os.environ['PATH']}"},
            stdin=subprocess.DEVNULL,
            stderr=subprocess.PIPE,
            text=True,
            start_new_session=True,
            preexec_fn=lambda: signal.signal(signal.SIGINT, signal.SIG_DFL),
        )

    def _write(self, path: pathlib.Path, script: str) -> None:
        path.write_text(f"#!/bin/sh\n{script}\n")
        path.chmod(0o755)

    def end(self) -> int:
        self.process.communicate(timeout=LONG)
        return self.process.returncode

    @property
    def slept(self) -> list[str]:
        path = self.folder / "slept"
        return path.read_text().split() if path.exists() else []

    @property
    def output(self) -> pathlib.Path:
        return self.folder / "planet.mbtiles.mvtgate"


def test_all_valid(tmp_path: pathlib.Path) -> None:
    write_database(tmp_path / "planet.mbtiles", [Tile(3, 1, 1, VALID)])
    it = Loop(tmp_path)
    assert (it.end(), it.slept) == (VALID_STATUS, [])


def test_goes_on_when_there_is_room(planet: Planet, tmp_path: pathlib.Path, small_disk: pathlib.Path) -> None:
    """The disk is full; while the loop waits somebody makes room."""
    shutil.copy(planet.path, tmp_path / "planet.mbtiles")
    subprocess.run(["mount", "-o", "remount,size=4k", str(small_disk)], check=True)
    (tmp_path / "planet.mbtiles.mvtgate").symlink_to(small_disk)
    it = Loop(tmp_path, f"mount -o remount,size=8m {small_disk}")
    assert it.end() == FAULTY
    assert it.slept == ["60"]
    found = faults_text(it.output).replace(str(tmp_path / "planet.mbtiles"), str(planet.path))
    assert found == planet.text


def test_ends_where_it_is_refused(tmp_path: pathlib.Path) -> None:
    (tmp_path / "planet.mbtiles").write_text("no database")
    it = Loop(tmp_path)
    assert (it.end(), it.slept) == (REFUSED, [])


@pytest.mark.parametrize("which", [signal.SIGINT, signal.SIGTERM])
def test_ends_where_it_is_interrupted(planet: Planet, tmp_path: pathlib.Path, gate: Gate, which: signal.Signals) -> None:
    """As by a terminal's key, or by a service that is stopped: all processes get it."""
    shutil.copy(planet.path, tmp_path / "planet.mbtiles")
    it = Loop(tmp_path, env=gate.env)
    wait_until(lambda: len(gate.processes) > 0 or it.process.poll() is not None)
    os.killpg(it.process.pid, which)
    assert (it.end(), it.slept) == (UNFINISHED, [])
    assert not (it.output / "report.html").exists() and len(journal(it.output)) < 2
