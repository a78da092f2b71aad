"""Runs that end in the middle: whatever ends, the same words go on, and nothing is lost or done twice."""
from __future__ import annotations

import os
import pathlib
import signal
import subprocess
import threading
import time
from typing import List

import pytest

from mvtgate.planet.cluster import _uninterrupted as uninterrupted
from planet.conftest import Gate
from planet.helpers.clusters import PARTITION, Cluster, locally, shared
from planet.helpers.planets import Planet
from planet.helpers.runs import FAULTY, LONG, PROGRAM, REFUSED, UNFINISHED, Run, environment, expect_whole, faults_text, has_gone, journal, run, wait_until

PARTITIONS = 1024 // PARTITION
INTERRUPTED = "mvtgate-planet: interrupted; the same words go on with it"


def test_undisturbed(planet: Planet, tmp_path: pathlib.Path) -> None:
    it = run(tmp_path / "out", *locally(planet))
    expect_whole(planet, it)
    assert len(journal(it.output)) == PARTITIONS
    faulty = len(planet.lines)
    assert it.said == [f"1024 tiles: {1024 - faulty} valid, {faulty} with a fault; see {it.output / 'report.html'}"]
    assert it.stdout == ""


def test_nobody_reads_the_progress(planet: Planet, tmp_path: pathlib.Path) -> None:
    """It goes on, and has the same status."""
    reads, writes = os.pipe()
    words = [*PROGRAM, "--output", "out", *map(str, locally(planet))]
    process = subprocess.Popen(words, cwd=tmp_path, env=environment(), stdin=subprocess.DEVNULL, stdout=writes, stderr=writes)
    os.close(writes)
    os.close(reads)
    assert process.wait(LONG) == FAULTY
    assert faults_text(tmp_path / "out") == planet.text


def test_killed_workers(planet: Planet, tmp_path: pathlib.Path, gate: Gate) -> None:
    """One, and a little later all that are there."""
    it = Run(tmp_path / "out", *locally(planet), env=gate.env)
    it.wait_for_lines(5)
    os.kill(it.workers()[0], signal.SIGKILL)
    it.wait_for_lines(15)
    wait_until(lambda: len(it.workers()) == 2)
    for worker in it.workers():
        os.kill(worker, signal.SIGKILL)
    gate.open()
    it.end()
    expect_whole(planet, it)


def test_killed_client(planet: Planet, tmp_path: pathlib.Path, gate: Gate, scheduler: str) -> None:
    it = Run(tmp_path / "out", *locally(planet), env=gate.env)
    it.wait_for_lines(10)
    workers = it.workers()
    assert len(workers) == 2
    it.process.kill()
    it.end()
    wait_until(lambda: all(map(has_gone, workers)))
    done = journal(it.output)
    assert 10 <= len(done) < PARTITIONS
    expect_whole(planet, run(it.output, *shared(planet, scheduler)))
    assert journal(it.output)[: len(done)] == done


@pytest.mark.parametrize("which, to_all", [(signal.SIGINT, True), (signal.SIGTERM, False), (signal.SIGTERM, True)])
def test_interrupted(
    planet: Planet, tmp_path: pathlib.Path, gate: Gate, scheduler: str, which: signal.Signals, to_all: bool
) -> None:
    it = Run(tmp_path / "out", *locally(planet), env=gate.env)
    it.wait_for_lines(10)
    workers = it.workers()
    # (a terminal sends it to all processes of the group)
    os.killpg(it.process.pid, which) if to_all else it.process.send_signal(which)
    assert (it.end(), it.said) == (UNFINISHED, [INTERRUPTED])
    assert len(workers) == 2
    wait_until(lambda: all(map(has_gone, workers)))
    assert not (it.output / "faults.jsonl").exists()
    if which == signal.SIGINT:
        expect_whole(planet, run(it.output, *shared(planet, scheduler)))


@pytest.mark.parametrize("which", [signal.SIGINT, signal.SIGTERM])
def test_interrupted_while_workers_start(planet: Planet, tmp_path: pathlib.Path, gate: Gate, which: signal.Signals) -> None:
    it = Run(tmp_path / "out", *locally(planet), env=gate.env)
    wait_until(lambda: len(it.workers()) > 0 or it.process.poll() is not None)
    os.killpg(it.process.pid, which)
    assert (it.end(), it.said) == (UNFINISHED, [INTERRUPTED])
    wait_until(lambda: not processes_of_group(it.process.pid))


def test_interrupts_wait() -> None:
    """Also where another thread is there that gets them: what must not be left half done comes to its end."""
    end, steps = threading.Event(), []
    other = threading.Thread(target=end.wait)
    # (where the tests run in the background it may be ignored)
    before = signal.signal(signal.SIGINT, signal.default_int_handler)
    other.start()
    try:
        with pytest.raises(KeyboardInterrupt):
            with uninterrupted():
                os.kill(os.getpid(), signal.SIGINT)
                for _ in range(50):
                    time.sleep(0.001)
                steps.append("whole")
            steps.append("not reached")
        assert steps == ["whole"] and signal.getsignal(signal.SIGINT) is signal.default_int_handler
    finally:
        signal.signal(signal.SIGINT, before)
        end.set()
        other.join()


def processes_of_group(group: int) -> List[int]:
    """The processes of a group that haven't ended."""
    found = []
    for folder in pathlib.Path("/proc").glob("[0-9]*"):
        try:
            of_process = os.getpgid(int(folder.name))
        except OSError:
            continue
        if of_process == group and not has_gone(int(folder.name)):
            found.append(int(folder.name))
    return found


def test_killed_scheduler(planet: Planet, tmp_path: pathlib.Path, gate: Gate, scheduler: str) -> None:
    cluster = Cluster(tmp_path, gate.env)
    try:
        it = Run(tmp_path / "out", *shared(planet, cluster.address), env=environment())
        it.wait_for_lines(10)
        cluster.scheduler.kill()
        # (a question that is under way as the scheduler goes is given up by Dask after 30 seconds)
        assert it.end() == UNFINISHED
        assert it.said == ["mvtgate-planet: the scheduler has gone, and with it what was under way; the same words go on"]
    finally:
        cluster.end()
    done = journal(it.output)
    assert 10 <= len(done) < PARTITIONS
    expect_whole(planet, run(it.output, *shared(planet, scheduler)))
    assert journal(it.output)[: len(done)] == done


def test_no_scheduler(planet: Planet, tmp_path: pathlib.Path) -> None:
    it = run(tmp_path / "out", *shared(planet, "tcp://127.0.0.1:1"), env=environment(DASK_DISTRIBUTED__COMM__TIMEOUTS__CONNECT="1s"))
    assert (it.process.returncode, len(it.said)) == (UNFINISHED, 1)
    assert it.said[0].startswith("mvtgate-planet: tcp://127.0.0.1:1: ")


@pytest.mark.parametrize("address", ["tcp://127.0.0.1:x", "foo://127.0.0.1:1", "nothing"])
def test_no_address(planet: Planet, tmp_path: pathlib.Path, address: str) -> None:
    it = run(tmp_path / "out", *shared(planet, address))
    said = f"mvtgate-planet: {address} is no address of a scheduler, such as tcp://host:8786"
    assert (it.process.returncode, it.said) == (REFUSED, [said])
