"""The cases of tests/planet_hosts."""
from __future__ import annotations

import json
import os
import pathlib
import signal
import subprocess
import time
from typing import Any, Callable, Dict, List, NamedTuple, Tuple

from network import Host
from runs import Cluster, Judged, Libraries, Run, expect, is_of, wait_for

# exit statuses
REFUSED, UNFINISHED = 3, 4
# what Dask is given: the shortest time that it takes (a connection that says nothing for so long has ended)
TIMEOUT = "11s"
# one that a short silence, also on a machine which does much else, doesn't come near
LONG_TIMEOUT = "300s"
# seconds after which a run goes on at the latest, or says that its scheduler is silent: ten times what bench/README.md has
GOES_ON, GOES_ON_BY_DEFAULT, TOLD, TOLD_BY_DEFAULT = 420.0, 620.0, 250.0, 630.0
# of a worker whose host answers, while it does nothing: how long the scheduler waits for a word of it, and then the run
TTL, GOES_ON_AFTER_TTL = "15s", 580.0
# microseconds a tile: a run of one worker takes half a second for each thousand tiles, or five seconds
QUICK, SLOW = 500, 5000


class Expected(NamedTuple):
    """How many tiles there are, the lines that faults.jsonl has to have, but for what the samples don't say, and its whole text
    from a run on one machine."""

    tiles: int
    lines: List[Dict[str, Any]]
    undisturbed: str


class Bench:
    """What all cases have: three hosts, the expected lines, and paths of tiles."""

    def __init__(self, folder: pathlib.Path, hosts: Dict[str, Host], libraries: Libraries, expected: Expected) -> None:
        self.first, self.second, self.third = (hosts[it] for it in ("first", "second", "third"))
        self.folder = folder
        self.libraries = libraries
        self.count, self.lines, self.undisturbed = expected
        self.shared, self.copies = folder / "shared/tiles.mbtiles", folder / "copies/tiles.mbtiles"
        self.different, self.missing = folder / "different/tiles.mbtiles", folder / "missing/tiles.mbtiles"

    def cluster(self, name: str, timeout: str | None = TIMEOUT, **settings: str) -> Cluster:
        folder = self.folder / "runs" / name
        folder.mkdir(parents=True)
        return Cluster(folder, self.libraries, timeout, settings)

    def start(self, cluster: Cluster, scheduler: Host, delay: int) -> Dict[Host, subprocess.Popen[bytes]]:
        """Starts a scheduler, and a worker on each of two hosts, which have joined it afterwards."""
        cluster.scheduler(scheduler)
        workers = {host: cluster.worker(host, scheduler, cluster.environment(delay)) for host in (self.first, self.second)}
        cluster.wait_for(*workers.values())
        return workers

    def expect_whole(self, run: Run, before: Tuple[Judged, ...] = ()) -> None:
        """All tiles are judged, each once, and reported as expected. What was found `before` both hosts lived stands as it was."""
        expect(run.status == 1, "status", run.status, run.said[-500:])
        keys = ("zoom", "column", "row", "tms_row", "size", "fault", "confirmed")
        found = [{key: line[key] for key in keys} for line in map(json.loads, run.faults().splitlines())]
        expect(found == self.lines, "faults.jsonl has", len(found), "lines that aren't the", len(self.lines), "expected ones")
        text = run.faults().replace(str(self.copies), str(self.shared))
        expect(text == self.undisturbed, "faults.jsonl isn't that of a run on one machine")
        journal = run.journal()
        expect(journal[: len(before)] == list(before), "what the journal had was changed")
        parts = [json.dumps(it["partition"]) for it in journal]
        expect(len(set(parts)) == len(parts), "a partition was done twice")
        tiles = sum(it["partition"]["tiles"] for it in journal)
        expect(tiles == self.count, tiles, "tiles in the journal")
        expect(f"{self.count} tiles: " in run.said, run.said[-200:])

    def expect_apart(self, journal: Tuple[Judged, ...]) -> None:
        """Each host has judged some, and confirmed what the other one found."""
        for judge, checker in ((self.first, self.second), (self.second, self.first)):
            of_judge = [it for it in journal if is_of(it["judged_by"], judge)]
            expect(of_judge, judge.name, "judged nothing")
            for it in of_judge:
                is_apart = not it["findings"] or is_of(it["confirmed_by"], checker)
                expect(is_apart, it["judged_by"], "was confirmed by", it["confirmed_by"])


def shared_and_copies(it: Bench) -> None:
    """The file in a shared folder, and as a copy of another time on each host, gives the same lines."""
    cluster = it.cluster("copies")
    it.start(cluster, it.third, QUICK)
    for tiles, name in ((it.shared, "of_shared"), (it.copies, "of_copies")):
        client = cluster.client(it.first, it.third, tiles, name)
        run = client.end()
        it.expect_whole(run)
        it.expect_apart(tuple(run.journal()))


def different_copy(it: Bench) -> None:
    """A copy of which one tile is another one, and one that isn't there, is reported."""
    cluster = it.cluster("different_copy")
    it.start(cluster, it.third, QUICK)
    for tiles, words in (
        (it.different, "isn't the file that it was when the run began"),
        (it.missing, "there is no such file or folder"),
    ):
        run = cluster.client(it.first, it.third, tiles, tiles.parent.name).end()
        expect(run.status == REFUSED, "status", run.status, run.said[-500:])
        expect(f"{tiles}" in run.said and words in run.said and names_worker(run.said, it.second), run.said[-500:])


def names_worker(said: str, host: Host) -> bool:
    return f"worker tcp://{host.address}:" in said


def unfit_worker(it: Bench) -> None:
    """A worker without the package, and one with another version of it, is reported by its address."""
    cluster = it.cluster("unfit")
    cluster.scheduler(it.third)
    cluster.worker(it.first, it.third, cluster.environment(QUICK))
    for environment, words in (
        (cluster.bare_environment(), "has mvtgate none: No module named 'mvtgate'"),
        (cluster.environment(is_other=True), "has mvtgate 9.0.0, and the run"),
    ):
        worker = cluster.worker(it.second, it.third, environment)
        cluster.wait_for(worker)
        run = cluster.client(it.first, it.third, it.shared, "run").end()
        it.second.end(worker)
        expect(run.status == REFUSED, "status", run.status)
        expect(words in run.said and names_worker(run.said, it.second), run.said)


def lose_second(it: Bench, cluster: Cluster, lose: Callable[[subprocess.Popen[bytes]], None], seconds: float) -> None:
    """Loses the second host's worker in the middle of a run, which goes on in time, and finds all."""
    workers = it.start(cluster, it.third, SLOW)
    client = cluster.client(it.first, it.third, it.shared, "run")
    before = tuple(client.wait_for_work_of([it.first, it.second], 3))
    lose(workers[it.second])
    lost = time.monotonic()
    # (more than was under way, which is eight)
    client.wait_for_work_of([it.first], 9, seconds)
    went_on = time.monotonic() - lost
    run = client.end()
    it.expect_whole(run, before)
    it.expect_apart(before)
    print(f"    it went on {went_on:.1f} s after that, and ended after {time.monotonic() - lost:.1f} s")


def silent_host(it: Bench) -> None:
    """A host that falls silent in the middle, for ever: the other one does the rest."""
    lose_second(it, it.cluster("silent_host"), lambda _: it.second.cut(), GOES_ON)


def short_silence(it: Bench) -> None:
    """A host that is silent for less than the timeout loses nothing, and nobody gives it up."""
    cluster = it.cluster("short_silence", LONG_TIMEOUT)
    it.start(cluster, it.third, SLOW)
    client = cluster.client(it.first, it.third, it.shared, "run")
    client.wait_for_work_of([it.first, it.second])
    it.second.cut()
    time.sleep(4)
    it.second.join()
    client.wait_for_work_of([it.first, it.second])
    run = client.end()
    until_end, _, _ = (cluster.folder / "scheduler-third.log").read_text().partition("Close client")
    expect("Remove worker" not in until_end, "the host was given up")
    it.expect_whole(run)
    it.expect_apart(tuple(run.journal()))


def host_that_comes_back(it: Bench) -> None:
    """A host that is silent until it is given up, and then comes back, takes part again."""
    cluster = it.cluster("comes_back")
    it.start(cluster, it.third, SLOW)
    client = cluster.client(it.first, it.third, it.shared, "run")
    before = tuple(client.wait_for_work_of([it.first, it.second], 2))
    it.second.cut()
    try:
        log = cluster.folder / "scheduler-third.log"
        wait_for(lambda: "Remove worker" in log.read_text(), "the scheduler gives the host up")
    finally:
        it.second.join()
    client.wait_for_work_of([it.first, it.second], 2)
    run = client.end()
    it.expect_whole(run, before)
    it.expect_apart(before)


def silent_scheduler(it: Bench) -> None:
    """A scheduler whose host falls silent is reported. With another one the same words go on."""
    lose_scheduler(it, it.cluster("silent_scheduler"), TOLD)


def lose_scheduler(it: Bench, cluster: Cluster, seconds: float) -> None:
    workers = it.start(cluster, it.third, SLOW)
    client = cluster.client(it.first, it.third, it.shared, "run")
    before = tuple(client.wait_for_work_of([it.first, it.second], 3))
    it.third.cut()
    cut = time.monotonic()
    try:
        run = client.end(seconds)
        print(f"    it was told {time.monotonic() - cut:.1f} s after the host fell silent")
    finally:
        it.third.join()
    expect(run.status == UNFINISHED and "mvtgate-planet: the scheduler has gone" in run.said, run.status, run.said[-500:])
    expect("Traceback" not in run.said, run.said[-2000:])
    before = tuple(run.journal())
    for host, worker in workers.items():
        host.end(worker)
    it.start(cluster, it.second, QUICK)
    run = cluster.client(it.first, it.second, it.shared, "run").end()
    it.expect_whole(run, before)
    it.expect_apart(tuple(run.journal()))


def silent_host_by_default(it: Bench) -> None:
    """A host that falls silent, with the settings that Dask has."""
    lose_second(it, it.cluster("silent_by_default", None), lambda _: it.second.cut(), GOES_ON_BY_DEFAULT)


def silent_scheduler_by_default(it: Bench) -> None:
    """A scheduler whose host falls silent, with the settings that Dask has."""
    lose_scheduler(it, it.cluster("scheduler_by_default", None), TOLD_BY_DEFAULT)


def stopped_worker(it: Bench) -> None:
    """A worker that does nothing any more, on a host that answers, is given up after the scheduler's worker-ttl."""
    cluster = it.cluster("stopped", DASK_DISTRIBUTED__SCHEDULER__WORKER_TTL=TTL)
    lose_second(it, cluster, lambda worker: os.killpg(worker.pid, signal.SIGSTOP), GOES_ON_AFTER_TTL)


Case = Callable[[Bench], None]
CASES: List[Case] = [
    shared_and_copies,
    different_copy,
    unfit_worker,
    short_silence,
    silent_host,
    host_that_comes_back,
    silent_scheduler,
]
LONG_CASES: List[Case] = [stopped_worker, silent_host_by_default, silent_scheduler_by_default]
