"""Nothing is left of requests: no goroutine, no connection, no memory. MVTGATE_PROXY_REQUESTS says of how many, in place of 10,000."""
from __future__ import annotations

import contextlib
import os
import pathlib
import subprocess
import threading
from dataclasses import dataclass
from typing import Callable, Iterator, List

import pytest

from conftest import NAMES, nginx_with_samples, path_of
from running import HERE, Proxy, proxy, until_death, wait_until

REQUESTS = int(os.environ.get("MVTGATE_PROXY_REQUESTS", "10000"))
CONNECTIONS = 16
MEGABYTE = 1 << 20
# What the resident memory may grow by from the first fifth of all requests to the end, by what malloc keeps in parts. A million
# requests that left 100 bytes each would be seen, 10,000 that left 10 KB.
MOST_GROWTH = 40 * MEGABYTE
# (Go collects garbage when its heap has so much, or after two silent minutes)
ENVIRONMENT = {"GOMEMLIMIT": "48MiB"}
# A server that says nothing, lies about what is packed, and fails
WRONG = """location /7/9/ { return 444; }
location /7/8/ { alias PLAIN/; add_header Content-Encoding gzip; }
location /7/7/ { return 503; }"""


@dataclass(frozen=True)
class State:
    """What the proxy takes while nothing is asked."""

    goroutines: int
    files: int
    resident: int


def state_of(gate: Proxy) -> State:
    metrics = gate.metrics()
    return State(int(metrics["go_goroutines"]), int(metrics["process_open_fds"]), gate.resident())


def lines() -> List[str]:
    """A request of each kind for each sample: 'PATH [NAME VALUE]'."""
    found = []
    for name in NAMES:
        path = path_of(name)
        found += [path, f"/packed{path} Accept-Encoding gzip", f"{path} If-None-Match *", f"{path} Range bytes=0-3"]
        found += [f"/7/8/{path.rpartition('/')[2]}", "/7/9/1.mvt", "/7/7/1.mvt", "/page/index.html", "/none", f"{path}?{len(found)}"]
    return found


def ask(gate: Proxy, requests: int, file: pathlib.Path) -> None:
    """So many requests by wrk, or a few more."""
    words = ["wrk", "-t1", f"-c{CONNECTIONS}", "-d3h", "--timeout", "10m", "-s", str(HERE / "mixed.lua"), f"http://{gate.address[0]}:{gate.address[1]}"]
    subprocess.run(until_death(*words, "--", str(requests), str(file)), check=True, capture_output=True)


RUDE = [
    b"",
    b"GET /7/0/1.mvt HT",
    b"GET /7/0/1.mvt HTTP/1.1\r\nHost: a\r\n\r\n",
    b"HEAD /7/0/1.mvt HTTP/1.1\r\nHost: a\r\n\r\n",
    b"GET /page/index.html HTTP/1.1\r\nHost: a\r\n\r\n",
    b"POST /page/index.html HTTP/1.1\r\nHost: a\r\nContent-Length: 100\r\n\r\nhalf",
    b"GET /page/ HTTP/1.1\r\nHost: a\r\nConnection: Upgrade\r\nUpgrade: echo\r\n\r\n",
    b"no HTTP at all\r\n\r\n",
]


@contextlib.contextmanager
def rude_clients(gate: Proxy) -> Iterator[Callable[[], int]]:
    """Clients that go away in the middle, one after the other, some hundred a second; how many there were."""
    is_over = threading.Event()
    count = 0

    def come_and_go() -> None:
        nonlocal count
        while not is_over.wait(0.005):
            with contextlib.suppress(OSError), gate.connect() as client:
                client.sendall(RUDE[count % len(RUDE)])
            count += 1

    coming = threading.Thread(target=come_and_go)
    coming.start()
    try:
        yield lambda: count
    finally:
        is_over.set()
        coming.join()


def is_idle(gate: Proxy) -> bool:
    return gate.metric("connections") == gate.metric("memory_bytes") == gate.metric("judging") == 0


@pytest.mark.parametrize("mode", ["report", "mend"])
def test_nothing_is_left_of_many_requests(mode: str, tmp_path: pathlib.Path, capsys: "pytest.CaptureFixture[str]") -> None:
    file = tmp_path / "requests"
    file.write_text("\n".join(lines()) + "\n")
    words = ["--mode", mode, "--last-good", "1M", "--remember", "64K", "--log-lines", "1"]
    with contextlib.ExitStack() as server:
        url = server.enter_context(nginx_with_samples(WRONG))
        with proxy(url, *words, environment=ENVIRONMENT) as gate:
            before = state_of(gate)
            states = []
            with rude_clients(gate) as count:
                for _ in range(5):
                    ask(gate, REQUESTS // 10, file)
                    states.append(state_of(gate))
                assert count() > len(RUDE)
            wait_until(lambda: is_idle(gate))
            assert sum(value for name, value in gate.metrics().items() if name.startswith("mvtgate_proxy_requests_total")) >= REQUESTS // 2
            server.close()
            wait_until(lambda: state_of(gate).goroutines <= before.goroutines and state_of(gate).files <= before.files)
            wait_until(lambda: gate.resident() - states[0].resident < MOST_GROWTH)
            told = f"{mode}: MiB before {before.resident // MEGABYTE}, after each fifth {[it.resident // MEGABYTE for it in states]}, at the end {gate.resident() // MEGABYTE}"
    if "MVTGATE_PROXY_REQUESTS" in os.environ:
        with capsys.disabled():
            print(f"\n{told}; {REQUESTS // 2:,} requests and {count():,} clients that went away; {before.goroutines} goroutines before and after")
