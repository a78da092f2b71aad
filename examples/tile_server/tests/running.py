"""What the tests and measurements run: a PostgreSQL with PostGIS in a folder of its own, the server, and the load generator wrk.
Each is a process that ends where its `with` ends, and also where this process is killed."""
from __future__ import annotations

import contextlib
import http.client
import json
import os
import pathlib
import pwd
import re
import shutil
import signal
import socket
import subprocess
import sys
import tempfile
import time
from dataclasses import dataclass
from typing import Any, Dict, Iterator, List, Mapping, Optional, Sequence

import psycopg2  # type: ignore[import]

HERE = pathlib.Path(__file__).resolve().parent
TOP = HERE.parents[2]
POSTGRESQL = pathlib.Path("/usr/lib/postgresql/15/bin")
# how long a process may take to begin or to end; the machine may be busy
SECONDS = 120


def until_death(*words: str) -> List[str]:
    """The words of a process that gets SIGINT where this one dies."""
    return ["setpriv", "--pdeathsig", "INT", *words]


def ended(process: subprocess.Popen[Any], with_signal: signal.Signals) -> int:
    """Ends a process and returns its status."""
    process.send_signal(with_signal)
    try:
        return process.wait(SECONDS)
    except subprocess.TimeoutExpired:
        process.kill()
        return process.wait()


class Database:
    """PostgreSQL in a fresh folder, on a socket in that folder alone. It refuses to run as root, so then it runs as `postgres`."""

    def __init__(self) -> None:
        self.folder = pathlib.Path(tempfile.mkdtemp(prefix="tile_server."))
        self.dsn = f"host={self.folder} user=tester dbname=map"
        self._process: Optional[subprocess.Popen[bytes]] = None
        self._as_whom: List[str] = []
        if os.geteuid() == 0:
            owner = pwd.getpwnam("postgres")
            os.chown(self.folder, owner.pw_uid, owner.pw_gid)
            self._as_whom = ["--reuid", "postgres", "--regid", "postgres", "--init-groups"]

    def _run(self, *words: str) -> None:
        subprocess.run(["setpriv", *self._as_whom, *words], cwd=self.folder, check=True, stdout=subprocess.DEVNULL)

    def make(self) -> None:
        """An empty database `map`, which is started."""
        data = str(self.folder / "data")
        self._run(str(POSTGRESQL / "initdb"), "-D", data, "-U", "tester", "-A", "trust", "-E", "UTF8", "--locale=C.UTF-8", "-N")
        self.start()
        with contextlib.closing(psycopg2.connect(self.dsn.replace("dbname=map", "dbname=postgres"))) as connection:
            connection.autocommit = True
            connection.cursor().execute("CREATE DATABASE map")

    def start(self) -> None:
        """Starts the server, and waits until it answers."""
        settings = ["listen_addresses=", f"unix_socket_directories={self.folder}", "fsync=off", "max_connections=40"]
        words = [str(POSTGRESQL / "postgres"), "-D", str(self.folder / "data"), *(it for name in settings for it in ("-c", name))]
        with open(self.folder / "log", "ab") as log:
            self._process = subprocess.Popen(
                until_death(*self._as_whom, *words), cwd=self.folder, stdin=subprocess.DEVNULL, stdout=log, stderr=log
            )
        end = time.monotonic() + SECONDS
        while not self._answers():
            if self._process.poll() is not None or time.monotonic() > end:
                raise RuntimeError(f"PostgreSQL did not start: {(self.folder / 'log').read_text()}")
            time.sleep(0.05)

    def _answers(self) -> bool:
        words = [str(POSTGRESQL / "pg_isready"), "-q", "-h", str(self.folder)]
        return subprocess.run(words).returncode == 0

    def stop(self) -> None:
        """Ends the server at once, and with it all connections."""
        if self._process is not None:
            ended(self._process, signal.SIGINT)
            self._process = None

    @contextlib.contextmanager
    def frozen(self) -> Iterator[None]:
        """Meanwhile the server keeps its connections and takes new ones, and says nothing."""
        assert self._process is not None
        ours = [self._process.pid]
        try:
            # (the first of them makes the others)
            os.kill(ours[0], signal.SIGSTOP)
            ours += map(int, pathlib.Path(f"/proc/{ours[0]}/task/{ours[0]}/children").read_text().split())
            for it in ours[1:]:
                os.kill(it, signal.SIGSTOP)
            yield
        finally:
            for it in ours:
                with contextlib.suppress(ProcessLookupError):
                    os.kill(it, signal.SIGCONT)

    def remove(self) -> None:
        """Ends the server and takes away all of its files."""
        self.stop()
        # (where initdb was interrupted, a process of its own may still take files away too)
        end = time.monotonic() + SECONDS
        while self.folder.exists() and time.monotonic() < end:
            shutil.rmtree(self.folder, ignore_errors=True)

    def run_file(self, path: pathlib.Path) -> None:
        """Runs a file of SQL, as its user would."""
        subprocess.run([str(POSTGRESQL / "psql"), "-q", "-v", "ON_ERROR_STOP=1", "-d", self.dsn, "-f", str(path)], check=True, stdout=subprocess.DEVNULL)

    @contextlib.contextmanager
    def transaction(self) -> Iterator[Any]:
        """A cursor whose work is undone at the end."""
        with contextlib.closing(psycopg2.connect(self.dsn)) as connection, connection.cursor() as cursor:
            yield cursor

    def number(self, query: str, *words: Any) -> int:
        """The one number that a query answers."""
        with self.transaction() as cursor:
            cursor.execute(query, words)
            return int(cursor.fetchone()[0])


@contextlib.contextmanager
def map_database() -> Iterator[Database]:
    """The database of the example."""
    database = Database()
    try:
        database.make()
        database.run_file(HERE.parent / "tables.sql")
        yield database
    finally:
        database.remove()


@dataclass(frozen=True)
class Reply:
    """What the server answered."""

    status: int
    headers: Mapping[str, str]
    body: bytes

    def json(self) -> Dict[str, Any]:
        loaded: Dict[str, Any] = json.loads(self.body)
        return loaded


def path_of(column: int, zoom: int = 6, row: int = 20) -> str:
    """The path of a tile; all tiles of the example are in one row."""
    return f"/tiles/{zoom}/{column}/{row}.mvt"


class Server:
    """The tile server as a process of its own, on a free port, with its log in a file."""

    def __init__(self, words: Sequence[str], log: pathlib.Path) -> None:
        self._log = log
        environment = {**os.environ, "PYTHONPATH": f"{TOP}/bindings/python/src:{TOP}/examples", "PYTHONDONTWRITEBYTECODE": "1"}
        with open(log, "wb") as file:
            self.process = subprocess.Popen(
                until_death(sys.executable, *words, "--port", "0"),
                env=environment,
                stdin=subprocess.DEVNULL,
                stdout=subprocess.PIPE,
                stderr=file,
            )
        assert self.process.stdout is not None
        told = re.fullmatch(rb"listening on (http://127\.0\.0\.1:([0-9]+))\n", self.process.stdout.readline())
        if not told:
            self.stop()
            raise RuntimeError(f"the server did not start: {self.log()}")
        self.address, self._port = told[1].decode(), int(told[2])

    def connect(self) -> socket.socket:
        """A connection on which nothing is asked."""
        return socket.create_connection(("127.0.0.1", self._port), timeout=SECONDS)

    def get(self, path: str, headers: Mapping[str, str] = {}, method: str = "GET") -> Reply:
        """Asks on a connection of its own."""
        with contextlib.closing(http.client.HTTPConnection("127.0.0.1", self._port, timeout=SECONDS)) as connection:
            connection.request(method, path, headers=dict(headers))
            answer = connection.getresponse()
            return Reply(answer.status, dict(answer.getheaders()), answer.read())

    def log(self) -> str:
        """What it has logged so far."""
        return self._log.read_text()

    def stop(self) -> int:
        """Ends it as a system does, and returns its status."""
        return ended(self.process, signal.SIGTERM)


@contextlib.contextmanager
def tile_server(dsn: str, *words: str, program: Sequence[str] = ("-m", "tile_server")) -> Iterator[Server]:
    """The server over a database."""
    with tempfile.TemporaryDirectory(prefix="tile_server.") as folder:
        server = Server([*program, "--dsn", dsn, *words], pathlib.Path(folder) / "log")
        try:
            yield server
        finally:
            server.stop()


@dataclass(frozen=True)
class Load:
    """What wrk counted and measured; the times are in milliseconds."""

    requests: int
    other_than_200: int
    socket_errors: int
    seconds: float
    p50: float
    p99: float

    @property
    def rate(self) -> float:
        """Requests a second."""
        return self.requests / self.seconds


def load(address: str, path: str, requests: int, connections: int) -> Load:
    """As many requests, or a few more, since wrk ends when it has counted them. It takes gzip, as browsers do."""
    words = ["wrk", "-t1", f"-c{connections}", "-d600s", "--timeout", "60s", "-s", str(HERE / "count.lua"), "-H", "Accept-Encoding: gzip"]
    run = subprocess.run(until_death(*words, address + path, "--", str(requests)), check=True, capture_output=True, text=True)
    told = json.loads(run.stdout.splitlines()[-1])
    return Load(**told)
