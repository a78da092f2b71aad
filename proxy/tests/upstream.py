"""Servers that answer to the byte as a test says, also wrongly."""
from __future__ import annotations

import contextlib
import socket
import threading
from dataclasses import dataclass
from typing import BinaryIO, Callable, Dict, Iterator, List, Mapping, Optional

from running import SECONDS, TILE_TYPE


@dataclass(frozen=True)
class Asked:
    """A request that came, and its connection."""

    method: str
    target: str
    headers: Mapping[str, str]
    connection: socket.socket


# What a server answers: bytes after which it waits for the next request, or None where it is to close the connection.
Answer = Callable[[Asked], Optional[bytes]]


def reply(body: bytes = b"", status: str = "200 OK", length: str = "", **headers: str) -> bytes:
    """An answer as bytes, with its length or another one. Names of headers have '_' for '-'."""
    lines = [f"HTTP/1.1 {status}", f"Content-Length: {length or len(body)}"]
    lines += [f"{name.replace('_', '-')}: {value}" for name, value in headers.items()]
    return "\r\n".join([*lines, "", ""]).encode() + body


def tile(body: bytes, **headers: str) -> bytes:
    """An answer with a tile."""
    return reply(body, **{"Content_Type": TILE_TYPE, **headers})


def head_of(reader: BinaryIO) -> List[bytes]:
    """The lines of a request or of an answer up to the empty one; none where the other side goes away before."""
    lines: List[bytes] = []
    for line in iter(reader.readline, b""):
        if line == b"\r\n":
            return lines
        lines.append(line)
    return []


class Upstream:
    """A server with a thread for each connection."""

    def __init__(self, answer: Answer) -> None:
        self._answer = answer
        self._listener = socket.create_server(("127.0.0.1", 0))
        self._open: List[socket.socket] = []
        self._lock = threading.Lock()
        self.asked: List[Asked] = []
        self.connections = 0
        self.url = f"http://127.0.0.1:{self._listener.getsockname()[1]}"
        threading.Thread(target=self._accept, daemon=True).start()

    def _accept(self) -> None:
        with contextlib.suppress(OSError):
            while True:
                connection, _ = self._listener.accept()
                connection.settimeout(SECONDS)
                with self._lock:
                    self.connections += 1
                    self._open.append(connection)
                threading.Thread(target=self._serve, args=[connection], daemon=True).start()

    def _serve(self, connection: socket.socket) -> None:
        with contextlib.suppress(OSError), connection:
            reader = connection.makefile("rb")
            while True:
                head = head_of(reader)
                if not head:
                    return
                asked = self._read(head, connection)
                reader.read(int(asked.headers.get("content-length", 0)))
                answer = self._answer(asked)
                if answer is None:
                    return
                connection.sendall(answer)

    def _read(self, head: List[bytes], connection: socket.socket) -> Asked:
        first, *lines = b"".join(head).decode("latin-1").split("\r\n")[:-1]
        method, target, _ = first.split(" ")
        headers: Dict[str, str] = {}
        for it in lines:
            name, _, value = it.partition(":")
            headers[name.lower()] = value.strip()
        asked = Asked(method, target, headers, connection)
        with self._lock:
            self.asked.append(asked)
        return asked

    def close(self) -> None:
        """Ends all connections at once."""
        with contextlib.suppress(OSError):
            self._listener.shutdown(socket.SHUT_RDWR)
        self._listener.close()
        with self._lock:
            for it in self._open:
                with contextlib.suppress(OSError):
                    it.shutdown(socket.SHUT_RDWR)


@contextlib.contextmanager
def upstream(answer: Answer) -> Iterator[Upstream]:
    """A server that answers so."""
    made = Upstream(answer)
    try:
        yield made
    finally:
        made.close()
