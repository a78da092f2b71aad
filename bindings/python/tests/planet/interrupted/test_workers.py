"""A run's own workers, as the machine sees them: where they listen. And workers that end right after they joined."""
from __future__ import annotations

import ipaddress
import os
import pathlib
import re
import socket
import struct
from typing import Iterator, List, Set, Tuple

from planet.conftest import Gate, Shimmed
from planet.helpers.clusters import Cluster, locally, shared
from planet.helpers.planets import Planet
from planet.helpers.runs import LONG, Run, children, environment, expect_whole, wait_until

LISTENS = "0A"  # the state, in /proc/net/tcp


def sockets_of(process: int) -> Set[str]:
    """The inodes of a process's sockets."""
    found = set()
    for it in pathlib.Path(f"/proc/{process}/fd").iterdir():
        try:
            target = os.readlink(it)
        except OSError:
            continue
        if target.startswith("socket:["):
            found.add(target[8:-1])
    return found


def listening(sockets: Set[str]) -> Iterator[ipaddress.IPv4Address | ipaddress.IPv6Address]:
    """The addresses at which these listen, by the kernel's tables."""
    for table in ("tcp", "tcp6"):
        path = pathlib.Path(f"/proc/net/{table}")
        for line in path.read_text().splitlines()[1:] if path.exists() else ():
            _, local, _, state, *rest = line.split()
            if state == LISTENS and rest[5] in sockets:
                words = bytes.fromhex(local.partition(":")[0])
                # (each word of four bytes in the machine's own order)
                yield ipaddress.ip_address(struct.pack(f">{len(words) // 4}I", *struct.unpack(f"={len(words) // 4}I", words)))


def test_table_is_read_rightly() -> None:
    for family, address in ((socket.AF_INET, "127.0.0.1"), (socket.AF_INET, "0.0.0.0"), (socket.AF_INET6, "::1")):
        with socket.socket(family) as it:
            it.bind((address, 0))
            it.listen()
            assert [str(found) for found in listening({str(os.fstat(it.fileno()).st_ino)})] == [address]


def test_all_listen_on_the_loopback_address(planet: Planet, tmp_path: pathlib.Path, gate: Gate) -> None:
    it = Run(tmp_path / "out", *locally(planet), env=gate.env)
    it.wait_for_lines(5)
    processes = [it.process.pid, *children(it.process.pid)]
    addresses = [address for process in processes for address in listening(sockets_of(process))]
    gate.open()
    it.end()
    # (a scheduler and two workers, each with a dashboard of its own)
    assert len(addresses) >= 6
    assert {str(address) for address in addresses} == {"127.0.0.1"}
    expect_whole(planet, it)


TOLD = re.compile(r"mvtgate-planet: (\d+) workers on 127\.0\.0\.1 have ended within 10 seconds after they had joined: ")
STANDING = re.compile(r"(\d+) workers?, (\d+) faults?(?:, (\d+) ended early)?")


def told(it: Run) -> List[int]:
    """How many workers it has told that ended early, each time."""
    return [int(found[1]) for found in map(TOLD.match, it.said) if found]


def standing(it: Run) -> List[Tuple[int, int, int]]:
    """How many workers and faults there were, and how many workers had ended early, by each line of its progress."""
    return [(int(workers), int(faults), int(early or 0)) for workers, faults, early in STANDING.findall(it.stderr)]


def test_workers_that_end_again_and_again(planet: Planet, tmp_path: pathlib.Path, shimmed: Shimmed, gate: Gate) -> None:
    """It is told, in the line of the progress too. A worker that comes later does the work."""
    cluster = Cluster(tmp_path, shimmed(0), workers=0)
    try:
        ending = cluster.add_worker({**shimmed(0), "SHIM_ENDS": "1"}, "--nanny")
        it = Run(tmp_path / "out", *shared(planet, cluster.address), env=environment())
        # (it is told at a look at the workers, and the line is written now and then: more may have ended by then)
        wait_until(lambda: any(early >= 3 for _, _, early in standing(it)) or it.process.poll() is not None)
        assert told(it) and all(count >= 3 for count in told(it)), it.stderr
        ending.terminate()
        ending.wait(LONG)
        cluster.add_worker(gate.env, "--no-nanny")
        wait_until(lambda: standing(it)[-1][0] == 1 and len(gate.processes) == 1)
        gate.open()
        it.end()
    finally:
        cluster.end()
    expect_whole(planet, it)
    workers, faults, early = standing(it)[-1]
    assert (workers, faults) == (1, len(planet.lines)) and early >= 3, it.stderr
