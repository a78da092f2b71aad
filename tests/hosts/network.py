"""Hosts on one switch: each a network namespace with a mount namespace of its own, and the processes that run there."""
from __future__ import annotations

import contextlib
import os
import pathlib
import signal
import subprocess
import sys
from typing import Dict, List, Mapping, Sequence

SWITCH = "switch"


def _ip(*words: str) -> None:
    subprocess.run(["ip", *words], check=True)


class Host:
    """One host. `cut` makes it silent: packets to and from it are lost, and neither side is told. `join` ends that."""

    def __init__(self, switch: str, name: str, number: int, mounts: Mapping[str, str]) -> None:
        self.name = name
        self.address = f"10.77.0.{number}"
        self._switch = switch
        self._namespace = f"{switch}-{name}"
        self._link = f"to-{name}"
        self._mounts = mounts
        self._keeper = 0
        self._started: List[subprocess.Popen[bytes]] = []

    def make(self) -> None:
        """Makes it, joined to the switch."""
        switch = self._switch
        _ip("netns", "add", self._namespace)
        _ip("link", "add", self._link, "netns", switch, "type", "veth", "peer", "name", "eth0", "netns", self._namespace)
        _ip("-n", self._namespace, "address", "add", f"{self.address}/24", "dev", "eth0")
        for link in ("lo", "eth0"):
            _ip("-n", self._namespace, "link", "set", link, "up")
        _ip("-n", switch, "link", "set", self._link, "up")
        self.join()
        self._keep()

    def _keep(self) -> None:
        """Starts a process that keeps the mount namespace, in which each of the paths is another folder."""
        script = 'while [ $# != 0 ]; do mount --bind "$2" "$1" || exit; shift 2; done; echo ready; exec sleep infinity'
        words = [it for mount in self._mounts.items() for it in mount]
        enter = ["ip", "netns", "exec", self._namespace, "unshare", "--mount", "--propagation", "private"]
        keeper = subprocess.Popen([*enter, "sh", "-c", script, "sh", *words], stdout=subprocess.PIPE, start_new_session=True)
        self._started.append(keeper)
        assert keeper.stdout is not None and keeper.stdout.readline() == b"ready\n", f"{self.name}: no mounts"
        self._keeper = keeper.pid

    def start(self, words: Sequence[str], log: pathlib.Path, **environment: str) -> subprocess.Popen[bytes]:
        """Starts a program on this host. What it says goes into a file."""
        enter = ["nsenter", f"--target={self._keeper}", "--net", "--mount", "--"]
        with open(log, "ab") as file:
            process = subprocess.Popen(
                [*enter, *words], stdin=subprocess.DEVNULL, stdout=file, stderr=file, env=environment, start_new_session=True
            )
        self._started.append(process)
        return process

    def cut(self) -> None:
        _ip("-n", self._switch, "link", "set", self._link, "nomaster")

    def join(self) -> None:
        _ip("-n", self._switch, "link", "set", self._link, "master", "bridge")

    def end(self, process: subprocess.Popen[bytes]) -> None:
        """Ends a program that was started here, with all that it started."""
        with contextlib.suppress(ProcessLookupError):
            os.killpg(process.pid, signal.SIGKILL)
        process.wait()
        self._started.remove(process)

    def close(self) -> None:
        """Ends all that runs here, and removes what has been made."""
        for process in reversed(list(self._started)):
            self.end(process)
        if self._namespace in namespaces():
            _ip("netns", "delete", self._namespace)


class Network:
    """A switch with hosts, away from the network of this machine. Leaving it removes all of it."""

    def __init__(self, mounts: Mapping[str, Mapping[str, str]]) -> None:
        self._switch = f"mvtgate-{os.getpid()}"
        self.hosts: Dict[str, Host] = {}
        self._stack = contextlib.ExitStack()
        try:
            self._make(mounts)
        except BaseException:
            self._stack.close()
            raise

    def _make(self, mounts: Mapping[str, Mapping[str, str]]) -> None:
        _ip("netns", "add", self._switch)
        self._stack.callback(_ip, "netns", "delete", self._switch)
        _ip("-n", self._switch, "link", "add", "bridge", "type", "bridge")
        _ip("-n", self._switch, "link", "set", "bridge", "up")
        for number, (name, of_host) in enumerate(mounts.items(), 1):
            # (it is registered first, since an interrupt may come while it is made)
            host = self.hosts[name] = Host(self._switch, name, number, of_host)
            self._stack.callback(host.close)
            host.make()

    def __enter__(self) -> Network:
        return self

    def __exit__(self, *_: object) -> None:
        # (a second interrupt must not leave a part of it)
        before = {it: signal.signal(it, signal.SIG_IGN) for it in (signal.SIGINT, signal.SIGTERM)}
        try:
            self._stack.close()
        finally:
            for it, handler in before.items():
                signal.signal(it, handler)


def namespaces() -> List[str]:
    """The network namespaces of this machine that such a network has made."""
    said = subprocess.run(["ip", "netns", "list"], check=True, stdout=subprocess.PIPE, encoding="utf-8").stdout
    return [line.split()[0] for line in said.splitlines() if line.startswith(f"mvtgate-{os.getpid()}")]


def can_make() -> str:
    """Why this machine can't make such a network, or nothing."""
    if os.geteuid() != 0:
        return "it needs root"
    try:
        with Network({"first": {}}):
            pass
    except (OSError, AssertionError, subprocess.SubprocessError) as error:
        return f"no network namespaces: {error}"
    return ""


if __name__ == "__main__":
    sys.exit(can_make() or None)
