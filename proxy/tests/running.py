"""What the tests run: the proxy, nginx, and servers that misbehave. Each ends where its `with` ends."""
from __future__ import annotations

import contextlib
import http.client
import json
import os
import pathlib
import re
import signal
import socket
import subprocess
import tempfile
import time
from dataclasses import dataclass
from typing import Any, Callable, Dict, Iterator, List, Mapping, Optional, Tuple

HERE = pathlib.Path(__file__).resolve().parent
TOP = HERE.parents[1]
PROGRAM = os.environ.get("MVTGATE_PROXY", str(TOP / "proxy/out/mvtgate-proxy"))
TILES = TOP / "tiles"
TILE_TYPE = "application/vnd.mapbox-vector-tile"
# how long anything may take; the machine may be busy
SECONDS = 180.0


def until_death(*words: str) -> List[str]:
    """The words of a process that ends where this one dies."""
    return ["setpriv", "--pdeathsig", "TERM", *words]


def ended(process: subprocess.Popen[Any], with_signal: signal.Signals = signal.SIGTERM) -> int:
    """Ends a process and returns its status."""
    process.send_signal(with_signal)
    try:
        return process.wait(SECONDS)
    except subprocess.TimeoutExpired:
        process.kill()
        return process.wait()


def wait_until(holds: Callable[[], bool]) -> None:
    """Waits until a condition holds."""
    end = time.monotonic() + SECONDS
    while not holds():
        assert time.monotonic() < end, "it doesn't come to pass"
        time.sleep(0.02)


def sample(name: str) -> bytes:
    """A sample tile."""
    return (TILES / f"{name}.mvt").read_bytes()


@dataclass(frozen=True)
class Reply:
    """An answer. Names of headers have a capital at the front of each word, and no others."""

    status: int
    headers: Mapping[str, str]
    body: bytes

    def json(self) -> Dict[str, Any]:
        loaded: Dict[str, Any] = json.loads(self.body)
        return loaded


def ask(address: Tuple[str, int], path: str, headers: Mapping[str, str] = {}, method: str = "GET", body: Optional[bytes] = None) -> Reply:
    """Asks on a connection of its own, with no other headers than these and Host."""
    with contextlib.closing(http.client.HTTPConnection(*address, timeout=SECONDS)) as connection:
        connection.putrequest(method, path, skip_host=True, skip_accept_encoding=True)
        for name, value in {"Host": f"{address[0]}:{address[1]}", **headers}.items():
            connection.putheader(name, value)
        if body is not None:
            connection.putheader("Content-Length", str(len(body)))
        connection.endheaders(body)
        answer = connection.getresponse()
        return Reply(answer.status, {name.title(): value for name, value in answer.getheaders()}, answer.read())


def address_of(text: str) -> Tuple[str, int]:
    """The host and the port of 'HOST:PORT'."""
    host, _, port = text.rpartition(":")
    return host, int(port)


class Proxy:
    """The proxy as a process of its own, on free ports, with its log in a file."""

    def __init__(self, upstream: str, words: List[str], folder: pathlib.Path, environment: Mapping[str, str]) -> None:
        self._log = folder / "log"
        ports = ["--listen", "127.0.0.1:0", "--admin", "127.0.0.1:0", "--upstream", upstream]
        with open(self._log, "wb") as log:
            self.process = subprocess.Popen(until_death(PROGRAM, *ports, *words), stdin=subprocess.DEVNULL, stderr=log, env={**os.environ, **environment})
        wait_until(lambda: self.process.poll() is not None or '"event":"listening"' in self.log())
        lines = self.lines("listening")
        if not lines:
            raise RuntimeError(f"the proxy did not start: {self.log()}")
        self.address, self.admin = address_of(lines[0]["address"]), address_of(lines[0]["admin"])

    def get(self, path: str, headers: Mapping[str, str] = {}, method: str = "GET", body: Optional[bytes] = None) -> Reply:
        return ask(self.address, path, headers, method, body)

    def connect(self) -> socket.socket:
        """A connection on which nothing is asked."""
        return socket.create_connection(self.address, timeout=SECONDS)

    def log(self) -> str:
        return self._log.read_text()

    def lines(self, event: str) -> List[Dict[str, Any]]:
        """The lines of the log about an event."""
        # (the last one may not be whole yet)
        found = [json.loads(it) for it in self.log().split("\n")[:-1] if it.startswith("{")]
        return [it for it in found if it["event"] == event]

    def metrics(self) -> Dict[str, float]:
        """All samples by name and labels, as Prometheus gets them."""
        text = ask(self.admin, "/metrics").body.decode()
        return {name: float(value) for name, value in re.findall(r"(?m)^(\w+(?:\{.*\})?) (\S+)$", text)}

    def metric(self, name: str) -> float:
        return self.metrics().get(f"mvtgate_proxy_{name}", 0.0)

    def resident(self) -> int:
        """The bytes of memory that it takes."""
        status = pathlib.Path(f"/proc/{self.process.pid}/status").read_text()
        found = re.search(r"VmRSS:\s+(\d+) kB", status)
        assert found
        return int(found[1]) * 1024


@contextlib.contextmanager
def proxy(upstream: str, *words: str, environment: Mapping[str, str] = {}) -> Iterator[Proxy]:
    """The proxy in front of a server."""
    with tempfile.TemporaryDirectory(prefix="mvtgate-proxy.") as folder:
        made = Proxy(upstream, list(words), pathlib.Path(folder), environment)
        try:
            yield made
        finally:
            if made.process.poll() is None:
                ended(made.process)


def free_port() -> int:
    """A port that was free a moment ago."""
    with socket.socket() as it:
        it.bind(("127.0.0.1", 0))
        port: int = it.getsockname()[1]
        return port


def answers(port: int) -> bool:
    """Whether a server answers HTTP there."""
    try:
        ask(("127.0.0.1", port), "/")
    except OSError:
        return False
    return True


@contextlib.contextmanager
def nginx(configuration: Callable[[pathlib.Path, int], str]) -> Iterator[str]:
    """nginx with the configuration of a folder and a port; its URL."""
    with tempfile.TemporaryDirectory(prefix="nginx.") as name:
        folder = pathlib.Path(name)
        for attempt in range(20):
            port = free_port()
            (folder / "nginx.conf").write_text(configuration(folder, port))
            with open(folder / "said", "wb") as said:
                process = subprocess.Popen(until_death("nginx", "-p", name, "-c", f"{name}/nginx.conf", "-e", f"{name}/error.log"), stdout=said, stderr=said)
            wait_until(lambda: process.poll() is not None or answers(port))
            if process.poll() is None:
                break
        else:
            raise RuntimeError((folder / "said").read_text() + (folder / "error.log").read_text())
        try:
            yield f"http://127.0.0.1:{port}"
        finally:
            ended(process, signal.SIGQUIT if process.poll() is None else signal.SIGTERM)


def nginx_of(http_lines: str, folder: pathlib.Path) -> str:
    """A configuration with these lines in its block `http`."""
    paths = "".join(f"{it}_temp_path {folder}/{it};\n" for it in ("client_body", "proxy", "fastcgi", "uwsgi", "scgi"))
    user = "user root;\n" if os.geteuid() == 0 else ""
    return f"{user}daemon off;\nworker_processes 2;\npid {folder}/pid;\nevents {{}}\nhttp {{\naccess_log off;\n{paths}{http_lines}\n}}\n"
