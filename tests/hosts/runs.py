"""Schedulers, workers and clients of mvtgate-planet on hosts, and what a run has left."""
from __future__ import annotations

import json
import os
import pathlib
import re
import subprocess
import time
from typing import Any, Callable, Dict, List, NamedTuple, Optional

from network import Host
from tiles import TOP

PYTHON = "/usr/bin/python3"
PACKAGE = str(TOP / "bindings/python/src")
PORT = 8786
_SECONDS = re.compile(r'"seconds": [-+.0-9e]+')
# seconds that something may take on a machine which does much else
LONG = 1200.0
# a worker that ends is started again, as a service manager does
_AGAIN = 'while :; do "$@"; sleep 0.2; done'

Judged = Dict[str, Any]


class Failed(Exception):
    """What a case expected, and wasn't so."""


def expect(holds: object, *said: object) -> None:
    if not holds:
        raise Failed(" ".join(map(str, said)))


def wait_for(holds: Callable[[], object], what: str, seconds: float = LONG) -> None:
    until = time.monotonic() + seconds
    while not holds():
        expect(time.monotonic() < until, "within", seconds, "seconds:", what)
        time.sleep(0.05)


class Libraries(NamedTuple):
    """Those that workers load: the one that is tested, one that takes longer for each tile, and one of another version."""

    real: str
    slow: str
    other: str


class Run(NamedTuple):
    """A run that has ended: what it wrote, and its exit status."""

    output: pathlib.Path
    status: int
    said: str
    seconds: float

    def faults(self) -> str:
        """faults.jsonl, but for the seconds that tiles took."""
        return _SECONDS.sub('"seconds": 0', (self.output / "faults.jsonl").read_text())

    def journal(self) -> List[Judged]:
        return journal_of(self.output)


def journal_of(output: pathlib.Path) -> List[Judged]:
    """The lines of partitions that a journal has so far."""
    path = output / "journal.jsonl"
    lines = path.read_bytes().split(b"\n")[:-1] if path.exists() else []
    members = [json.loads(it) for it in lines]
    return [it["judged"] for it in members if "judged" in it]


class Cluster:
    """What runs on the hosts of a case. `timeout` is Dask's for connections that say nothing, or None for its default; `settings`
    are others, as variables of the environment."""

    def __init__(self, folder: pathlib.Path, libraries: Libraries, timeout: Optional[str], settings: Dict[str, str]) -> None:
        self.folder = folder
        self.libraries = libraries
        self._logs: Dict[int, pathlib.Path] = {}
        # (PATH and HOME alone: no setting of this machine's user)
        self._environment = {key: os.environ[key] for key in ("PATH", "HOME") if key in os.environ}
        self._environment.update(settings, PYTHONDONTWRITEBYTECODE="1")
        if timeout is not None:
            self._environment["DASK_DISTRIBUTED__COMM__TIMEOUTS__TCP"] = timeout
            self._environment["DASK_DISTRIBUTED__COMM__TIMEOUTS__CONNECT"] = timeout

    def _with_package(self, library: str, delay: int) -> Dict[str, str]:
        shim = {"SHIM_LIBRARY": self.libraries.real, "SHIM_DELAY": str(delay)}
        return {**self._environment, **shim, "PYTHONPATH": PACKAGE, "MVTGATE_LIBRARY": library}

    def scheduler(self, host: Host) -> subprocess.Popen[bytes]:
        """Starts a scheduler. It needs no package of ours."""
        words = ["dask", "scheduler", "--host", host.address, "--port", str(PORT), "--no-dashboard"]
        return host.start(words, self.folder / f"scheduler-{host.name}.log", **self._environment)

    def worker(self, host: Host, scheduler: Host, environment: Dict[str, str]) -> subprocess.Popen[bytes]:
        """Starts a worker, and starts it again whenever it ends."""
        words = ["dask", "worker", f"tcp://{scheduler.address}:{PORT}", "--host", host.address, "--no-dashboard"]
        words += ["--nthreads", "1", "--nworkers", "1", "--memory-limit", "0"]
        words += ["--local-directory", str(self.folder / f"dask-{host.name}")]
        log = self.folder / f"worker-{host.name}.log"
        log.unlink(missing_ok=True)
        process = host.start(["sh", "-c", _AGAIN, "sh", *words], log, **environment)
        self._logs[process.pid] = log
        return process

    def wait_for(self, *workers: subprocess.Popen[bytes]) -> None:
        """Waits until these workers have joined."""
        for worker in workers:
            log = self._logs[worker.pid]
            wait_for(lambda: "Starting established connection" in log.read_text(), f"{log.name} says that it has joined")

    def environment(self, delay: int = 0, is_other: bool = False) -> Dict[str, str]:
        """That of a worker whose library takes so many microseconds more for a tile, or is of another version."""
        return self._with_package(self.libraries.other if is_other else self.libraries.slow, delay)

    def bare_environment(self) -> Dict[str, str]:
        """That of a worker without the package."""
        return self._environment

    def client(self, host: Host, scheduler: Host, tiles: pathlib.Path, name: str) -> Client:
        """Starts a run of the program."""
        output = self.folder / name
        words = [PYTHON, "-m", "mvtgate.planet", str(tiles), "--scheduler", f"tcp://{scheduler.address}:{PORT}"]
        words += ["--output", str(output), "--partition", "50"]
        log = self.folder / f"{name}.log"
        log.unlink(missing_ok=True)
        return Client(host, host.start(words, log, **self._with_package(self.libraries.real, 0)), output, log)


class Client:
    """A run of the program on a host."""

    def __init__(self, host: Host, process: subprocess.Popen[bytes], output: pathlib.Path, log: pathlib.Path) -> None:
        self._host = host
        self._process = process
        self._began = time.monotonic()
        self._log = log
        self.output = output

    def end(self, seconds: float = LONG) -> Run:
        """Waits for the end."""
        try:
            status = self._process.wait(seconds)
        except subprocess.TimeoutExpired:
            raise Failed(f"the run has not ended after {seconds} seconds: {self._log.read_text()[-500:]}") from None
        took = time.monotonic() - self._began
        self._host.end(self._process)
        return Run(self.output, status, self._log.read_text(), took)

    def wait_for_work_of(self, hosts: List[Host], more: int = 1, seconds: float = LONG) -> List[Judged]:
        """Waits until each of the hosts has judged so many partitions more, and returns those that are done."""
        before = len(journal_of(self.output))

        def is_done() -> bool:
            expect(self._process.poll() is None, "the run has ended too early:", self._log.read_text()[-500:])
            judges = [judged["judged_by"] for judged in journal_of(self.output)[before:]]
            return all(sum(is_of(it, host) for it in judges) >= more for host in hosts)

        wait_for(is_done, f"judged by {', '.join(it.name for it in hosts)}", seconds)
        return journal_of(self.output)


def is_of(worker: str, host: Host) -> bool:
    """Whether a worker's address is on a host."""
    return worker.startswith(f"tcp://{host.address}:")
