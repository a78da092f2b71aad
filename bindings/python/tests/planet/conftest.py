"""A library that stands before the real one, workers that many tests share, a planet of sample tiles, and a disk with little room."""
from __future__ import annotations

import os
import pathlib
import shutil
import subprocess
from dataclasses import dataclass
from typing import Any, Callable, Dict, Iterator, List

import pytest

from mvtgate import _library
from planet.helpers.planets import Planet, full_zoom
from planet.helpers.runs import environment

HERE = pathlib.Path(__file__).resolve().parent
# the environment of a run with the library of shim.c, which takes so many microseconds more for a tile
Shimmed = Callable[[int], Dict[str, str]]
# tiles that a worker judges before it comes to the gate: fewer than two may have of a planet's before the run is at its end
FREE = 256


@pytest.fixture(scope="session")
def gate_path(tmp_path_factory: pytest.TempPathFactory) -> pathlib.Path:
    """Where the gate of all tests is. It is open, unless a test has closed it."""
    path = tmp_path_factory.mktemp("gate") / "gate"
    path.touch()
    return path


@pytest.fixture(scope="session")
def shimmed(tmp_path_factory: pytest.TempPathFactory, gate_path: pathlib.Path) -> Shimmed:
    """The environment of a run whose library is slow, and does what a tile's last bytes say."""
    if shutil.which("gcc") is None:
        pytest.skip("there is no gcc, which makes the library that is slow and that kills")
    made = tmp_path_factory.mktemp("shim") / "libshim.so"
    words = ["gcc", "-std=gnu11", "-Wall", "-Wextra", "-Werror", "-O1", "-shared", "-fPIC", "-o", str(made), str(HERE / "helpers/shim.c"), "-ldl"]
    subprocess.run(words, check=True)

    def of_delay(microseconds: int) -> Dict[str, str]:
        library = _library._candidates()[0]
        return environment(MVTGATE_LIBRARY=str(made), SHIM_LIBRARY=library, SHIM_DELAY=str(microseconds), SHIM_GATE=str(gate_path))

    return of_delay


@dataclass(frozen=True)
class Gate:
    """Where tiles wait until a test opens it, so that what the test does comes in the middle of a run, however busy the machine is."""

    path: pathlib.Path
    waiting: pathlib.Path
    # of a run whose workers come to it after some tiles
    env: Dict[str, str]

    def open(self) -> None:
        self.path.touch()

    def close(self) -> None:
        for path in (self.path, self.waiting):
            path.unlink(missing_ok=True)

    @property
    def processes(self) -> List[int]:
        """Those that have come to it, and found it closed."""
        lines = self.waiting.read_text().splitlines(keepends=True) if self.waiting.exists() else []
        return [int(it) for it in lines if it.endswith("\n")]


@pytest.fixture
def gate(gate_path: pathlib.Path, shimmed: Shimmed) -> Iterator[Gate]:
    """The gate, closed."""
    it = Gate(gate_path, gate_path.with_name(f"{gate_path.name}.waiting"), {**shimmed(0), "SHIM_FREE": str(FREE)})
    it.close()
    yield it
    it.open()


@pytest.fixture(scope="session")
def scheduler(shimmed: Shimmed) -> Iterator[str]:
    """The address of a scheduler with two workers that outlive a run. A call is taken to be the reason when its worker ends once."""
    dask: Any = pytest.importorskip("dask")
    distributed: Any = pytest.importorskip("distributed")
    settings = {
        "distributed.scheduler.allowed-failures": 0,
        "distributed.deploy.lost-worker-timeout": "1000 days",
        "distributed.comm.timeouts.connect": "5s",
    }
    with dask.config.set(settings), distributed.LocalCluster(
        n_workers=2, threads_per_worker=1, dashboard_address="127.0.0.1:0", silence_logs="CRITICAL", env=shimmed(0)
    ) as cluster:
        yield cluster.scheduler_address


@pytest.fixture(scope="session")
def planet(tmp_path_factory: pytest.TempPathFactory) -> Planet:
    """1,024 tiles, of which 113 have a fault."""
    return full_zoom(tmp_path_factory.mktemp("planet") / "planet.mbtiles", 5)


@pytest.fixture
def small_disk(tmp_path: pathlib.Path) -> Iterator[pathlib.Path]:
    """A file system with room for some lines of a journal."""
    folder = tmp_path / "disk"
    folder.mkdir()
    words = ["mount", "-t", "tmpfs", "-o", "size=32k", "tmpfs", str(folder)]
    if os.geteuid() != 0 or shutil.which("mount") is None or subprocess.run(words, capture_output=True).returncode != 0:
        pytest.skip("a small file system can't be mounted, which needs root")
    yield folder
    subprocess.run(["umount", str(folder)], check=True)
