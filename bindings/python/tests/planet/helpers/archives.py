"""PMTiles archives for tests, written by the public specification with no code of the package, and a web server that has them."""
from __future__ import annotations

import gzip
import http.server
import pathlib
import re
import struct
import threading
from dataclasses import dataclass, field
from typing import Any, Iterator, List, Optional, Protocol, Sequence, Tuple

# tile id, run, offset and length
Written = Tuple[int, int, int, int]
_HEADER = struct.Struct("<7sB11Q6BiiiiBii")


class Tile(Protocol):
    """A tile with its row from the north, and its bytes as they are stored."""

    @property
    def zoom(self) -> int: ...

    @property
    def column(self) -> int: ...

    @property
    def row(self) -> int: ...

    @property
    def stored(self) -> bytes: ...


def tile_id(zoom: int, column: int, row: int) -> int:
    """As in the specification's own code: the tiles of all smaller zooms, and the place along the Hilbert curve."""
    found = sum(1 << 2 * it for it in range(zoom))
    side = 2**zoom // 2
    while side > 0:
        east, south = int(column & side > 0), int(row & side > 0)
        found += side * side * ((3 * east) ^ south)
        if south == 0:
            if east == 1:
                column, row = side - 1 - column, side - 1 - row
            column, row = row, column
        side //= 2
    return found


def varint(number: int) -> bytes:
    found = bytearray()
    while number > 127:
        found.append(number & 127 | 128)
        number >>= 7
    return bytes([*found, number])


def directory(entries: Sequence[Written]) -> bytes:
    """A directory, unpacked."""
    parts = [varint(len(entries))]
    before = 0
    for it in entries:
        parts.append(varint(it[0] - before))
        before = it[0]
    parts += [varint(it[1]) for it in entries]
    parts += [varint(it[3]) for it in entries]
    for at, it in enumerate(entries):
        follows = at > 0 and it[2] == entries[at - 1][2] + entries[at - 1][3]
        parts.append(varint(0 if follows else it[2] + 1))
    return b"".join(parts)


def archive(root: bytes, leaves: bytes, data: bytes, *, packing: int = 2, version: int = 3, kind: int = 1, addressed: int = 0) -> bytes:
    """An archive of these parts, as they are packed."""
    metadata = gzip.compress(b"{}") if packing == 2 else b"{}"
    sections, at = [], _HEADER.size
    for part in (root, metadata, leaves, data):
        sections += [at, len(part)]
        at += len(part)
    head = _HEADER.pack(b"PMTiles", version, *sections, addressed, 0, 0, 1, packing, 2, kind, 0, 30, 0, 0, 0, 0, 0, 0, 0)
    return b"".join([head, root, metadata, leaves, data])


@dataclass
class _Contents:
    """The bytes of tiles, each content once."""

    data: bytearray = field(default_factory=bytearray)
    places: dict[bytes, int] = field(default_factory=dict)

    def add(self, stored: bytes) -> Tuple[int, int]:
        if stored not in self.places:
            self.places[stored] = len(self.data)
            self.data += stored
        return self.places[stored], len(stored)


def _entries(tiles: Sequence[Tile], contents: _Contents) -> List[Written]:
    entries: List[Written] = []
    for at, stored in sorted((tile_id(it.zoom, it.column, it.row), it.stored) for it in tiles):
        offset, length = contents.add(stored)
        last = entries[-1] if entries else None
        if last and last[0] + last[1] == at and last[2:] == (offset, length):
            entries[-1] = (last[0], last[1] + 1, offset, length)
        else:
            entries.append((at, 1, offset, length))
    return entries


def _packed(data: bytes, packing: int) -> bytes:
    return gzip.compress(data) if packing == 2 else data


def write_archive(path: pathlib.Path, tiles: Sequence[Tile], leaf: int = 0, packing: int = 2) -> pathlib.Path:
    """An archive with these tiles, clustered; with leaf directories of so many entries, or none."""
    contents = _Contents()
    entries = _entries(tiles, contents)
    root, leaves = entries, b""
    if leaf:
        root = []
        for at in range(0, len(entries), leaf):
            packed = _packed(directory(entries[at : at + leaf]), packing)
            root.append((entries[at][0], 0, len(leaves), len(packed)))
            leaves += packed
    path.write_bytes(archive(_packed(directory(root), packing), leaves, bytes(contents.data), packing=packing))
    return path


class _Handler(http.server.BaseHTTPRequestHandler):
    protocol_version = "HTTP/1.1"
    server: WebServer

    def log_message(self, format: str, *args: Any) -> None:
        """Says nothing."""

    def do_GET(self) -> None:
        told = re.fullmatch(r"bytes=(\d+)-(\d+)", self.headers.get("Range", ""))
        site = self.server
        with site.lock:
            site.requests += 1
            site.asked = self.path
            failing = site.failing > 0
            site.failing -= failing
        if failing or not told:
            self._send(503, b"busy")
        elif site.elsewhere is not None:
            self._send(302, b"", location=site.elsewhere)
        elif not site.has_ranges:
            self._send(200, site.data)
        else:
            first, last = int(told[1]), int(told[2])
            part = site.data[first : last + 1]
            self._send(206, part, f"bytes {first}-{first + len(part) - 1}/{site.size or len(site.data)}", site.cut)

    def _send(self, status: int, body: bytes, content_range: Optional[str] = None, cut: int = 0, location: Optional[str] = None) -> None:
        self.send_response(status)
        self.send_header("Content-Length", str(len(body)))
        self.send_header("ETag", self.server.tag)
        if content_range:
            self.send_header("Content-Range", content_range)
        if location:
            self.send_header("Location", location)
        self.end_headers()
        self.wfile.write(body[: max(0, len(body) - cut)])
        if cut:
            self.close_connection = True


class WebServer(http.server.ThreadingHTTPServer):
    """One file, by ranges; or as a server answers that has none, is busy at first, cuts its answers off, sends elsewhere, or gives
    another size."""

    daemon_threads = True

    def __init__(self, data: bytes) -> None:
        super().__init__(("127.0.0.1", 0), _Handler)
        self.data, self.tag, self.has_ranges, self.failing, self.cut, self.requests = data, '"1"', True, 0, 0, 0
        self.asked = ""
        self.elsewhere: Optional[str] = None
        self.size: Optional[str] = None
        self.lock = threading.Lock()

    @property
    def address(self) -> str:
        return f"http://127.0.0.1:{self.server_address[1]}/planet.pmtiles"


def serving(data: bytes) -> Iterator[WebServer]:
    """A server while a test runs."""
    with WebServer(data) as server:
        thread = threading.Thread(target=server.serve_forever, daemon=True)
        thread.start()
        yield server
        server.shutdown()
        thread.join()
