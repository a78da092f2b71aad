"""A PostgreSQL of the tests' own, with the extension in it.

Its programs look for their files beside themselves, so a copy of Debian's folders takes the extension, and the system's own stays as
it was. The server refuses to run as root, so then it runs as `postgres`.
"""
from __future__ import annotations

import os
import pathlib
import pwd
import shutil
import subprocess
import tempfile
import time
from typing import Any, List, Optional

import psycopg2  # type: ignore[import]

TOP = pathlib.Path(__file__).resolve().parents[3]
EXTENSION = TOP / "bindings/postgresql"
_PROGRAMS, _SHARED, _HEADERS = (pathlib.Path(it) for it in ("usr/lib/postgresql/15", "usr/share/postgresql/15", "usr/include"))
# how long a process may take to begin or to end; the machine may be busy
SECONDS = 300


class Installation:
    """The copied folders, and a server in a fresh folder of them, on a socket there alone."""

    def __init__(self) -> None:
        self.folder = pathlib.Path(tempfile.mkdtemp(prefix="mvtgate_sql."))
        self.programs = self.folder / _PROGRAMS / "bin"
        self._process: Optional[subprocess.Popen[bytes]] = None
        self.as_whom: List[str] = []
        if os.geteuid() == 0:
            owner = pwd.getpwnam("postgres")
            os.chown(self.folder, owner.pw_uid, owner.pw_gid)
            self.as_whom = ["setpriv", "--reuid", "postgres", "--regid", "postgres", "--init-groups"]

    def copy(self) -> None:
        """Copies what the server and the extension's Makefile need."""
        for it in (_PROGRAMS, _SHARED):
            ignored = shutil.ignore_patterns("bitcode", "locale", "man")
            shutil.copytree(pathlib.Path("/", it), self.folder / it, symlinks=True, ignore=ignored)
        (self.folder / _HEADERS).symlink_to(pathlib.Path("/", _HEADERS))

    def make(self, *words: str, makefile: pathlib.Path = EXTENSION / "Makefile", **how: Any) -> subprocess.CompletedProcess[str]:
        """Calls the extension's Makefile in a folder beside, with warnings as errors."""
        built = self.folder / "built"
        built.mkdir(exist_ok=True)
        command = ["make", "-f", str(makefile), f"PG_CONFIG={self.programs}/pg_config", "COPT=-Werror", *words]
        return subprocess.run(command, cwd=built, capture_output=True, text=True, **how)

    def words(self, program: str, *words: str) -> List[str]:
        """The words by which a program of the copy runs as the server's owner."""
        return [*self.as_whom, str(self.programs / program), *words]

    @property
    def data(self) -> str:
        return str(self.folder / "data")

    @property
    def environment(self) -> dict[str, str]:
        """For programs that ask the server."""
        return {**os.environ, "PGHOST": str(self.folder), "PGUSER": "tester", "PGDATABASE": "postgres"}

    def initialize(self, data: str) -> None:
        """Makes an empty cluster in a folder."""
        words = ["-D", data, "-U", "tester", "-A", "trust", "-E", "UTF8", "--locale=C.UTF-8", "-N"]
        subprocess.run(self.words("initdb", *words), cwd=self.folder, check=True, stdout=subprocess.DEVNULL)

    def start(self, *more: str) -> None:
        """Starts the server, with more settings, and waits until it answers."""
        settings = ["listen_addresses=", f"unix_socket_directories={self.folder}", "fsync=off", "max_connections=100", *more]
        words = ["setpriv", "--pdeathsig", "INT", *self.words("postgres", "-D", self.data)]
        log = self.folder / "log"
        with open(log, "ab") as file:
            self._process = subprocess.Popen(
                [*words, *(it for name in settings for it in ("-c", name))], cwd=self.folder, stdin=subprocess.DEVNULL, stdout=file, stderr=file
            )
        end = time.monotonic() + SECONDS
        while subprocess.run([self.programs / "pg_isready", "-q", "-h", self.folder]).returncode:
            if self._process.poll() is not None or time.monotonic() > end:
                raise RuntimeError(f"PostgreSQL did not start: {log.read_text()}")
            time.sleep(0.05)

    def stop(self) -> None:
        """Ends the server, and with it all connections."""
        if self._process is None:
            return
        # (as SIGINT, which the server takes as a request to end at once)
        self._process.send_signal(2)
        try:
            self._process.wait(SECONDS)
        except subprocess.TimeoutExpired:
            self._process.kill()
            self._process.wait()
        self._process = None

    def remove(self) -> None:
        """Ends the server and takes away all of its files."""
        self.stop()
        shutil.rmtree(self.folder, ignore_errors=True)

    def connect(self, database: str = "postgres", user: str = "tester", options: str = "") -> Any:
        """A connection on which each statement is a transaction by itself."""
        connection = psycopg2.connect(host=str(self.folder), user=user, dbname=database, options=options)
        connection.autocommit = True
        return connection

    def make_database(self, name: str) -> None:
        connection = self.connect()
        try:
            connection.cursor().execute(f"CREATE DATABASE {name}")
        finally:
            connection.close()
