"""Words for runs on workers of their own and on others, and a scheduler and workers that a test may end."""
from __future__ import annotations

import json
import pathlib
import subprocess
import sys
from typing import Dict, List

from planet.helpers.planets import Planet
from planet.helpers.runs import wait_until

PARTITION = 16


def locally(planet: Planet) -> List[object]:
    """The words for two workers of the run's own."""
    return [planet.path, "--workers", 2, "--partition", PARTITION]


def shared(planet: Planet, scheduler: str) -> List[object]:
    """The words for the workers that tests share."""
    return [planet.path, "--scheduler", scheduler, "--partition", PARTITION]


class Cluster:
    """A scheduler and workers, each a process of its own. `log` is that of the workers."""

    def __init__(self, folder: pathlib.Path, env: Dict[str, str], workers: int = 2) -> None:
        self._folder, self.log = folder, folder / "dask_worker"
        self._started: List[subprocess.Popen[bytes]] = []
        words = ["--host", "127.0.0.1", "--port", "0", "--scheduler-file", str(folder / "scheduler"), "--no-dashboard"]
        self.scheduler = self._start("dask_scheduler", words, env)
        # (a file that is there may not be whole)
        wait_until(lambda: (folder / "scheduler").exists() and (folder / "scheduler").read_text().endswith("}"))
        for _ in range(workers):
            self.add_worker(env, "--no-nanny")

    def add_worker(self, env: Dict[str, str], nanny: str) -> subprocess.Popen[bytes]:
        """Starts one, with a nanny that starts it again where it ends, or without."""
        words = ["--scheduler-file", str(self._folder / "scheduler"), "--host", "127.0.0.1", "--nthreads", "1", "--no-dashboard", nanny]
        return self._start("dask_worker", words, env)

    def _start(self, module: str, words: List[str], env: Dict[str, str]) -> subprocess.Popen[bytes]:
        with open(self._folder / module, "ab") as log:
            command = [sys.executable, "-m", f"distributed.cli.{module}", *words]
            it = subprocess.Popen(command, stdin=subprocess.DEVNULL, stdout=log, stderr=log, env=env, cwd=self._folder)
        self._started.append(it)
        return it

    @property
    def address(self) -> str:
        address: str = json.loads((self._folder / "scheduler").read_text())["address"]
        return address

    def end(self) -> None:
        for it in self._started:
            it.kill()
            it.wait()
