"""The bytes of an archive, range by range: of a file, or of a web server that answers ranges (RFC 9110, section 14)."""
from __future__ import annotations

import abc
import http.client
import os
import re
import threading
import time
import urllib.error
import urllib.parse
import urllib.request
from typing import Any, Dict, NamedTuple, Optional

from ..source import NotASource, SourceChanged

_SECONDS = 30.0
# a request that fails for now is made again, after a pause that doubles
_TRIES = 5
_PAUSE = 0.5
# how many requests a process makes at once, so that no server is overrun by one
_AT_ONCE = threading.BoundedSemaphore(4)
_FOR_NOW = (408, 425, 429, 500, 502, 503, 504)
_CONTENT_RANGE = re.compile(r"bytes (\d+)-(\d+)/(\d+)", re.ASCII)


def is_address(path: str) -> bool:
    """Whether a path is the address of a file on a web server."""
    return path.startswith(("https://", "http://"))


class Ranges(abc.ABC):
    """What an archive is read from."""

    @abc.abstractmethod
    def read(self, offset: int, length: int) -> bytes:
        """So many bytes from there on. SourceChanged where there are fewer."""

    @abc.abstractmethod
    def stamp(self) -> Dict[str, Any]:
        """What has to stay the same."""

    @abc.abstractmethod
    def modified(self) -> int:
        """When it was last changed, as this machine says, or 0."""

    @property
    @abc.abstractmethod
    def size(self) -> int:
        """How many bytes there are."""

    def close(self) -> None:
        """Lets go of what is open."""


class FileRanges(Ranges):
    """A file. Threads may read at once."""

    def __init__(self, path: str) -> None:
        self._path = path
        try:
            self._file = open(path, "rb")
        except OSError as error:
            raise NotASource(f"{path}: {error.strerror}") from None

    @property
    def size(self) -> int:
        return os.fstat(self._file.fileno()).st_size

    def read(self, offset: int, length: int) -> bytes:
        try:
            found = os.pread(self._file.fileno(), length, offset)
        except OSError as error:
            raise NotASource(f"{self._path}: {error.strerror}") from None
        if len(found) != length:
            raise SourceChanged(f"{self._path} is shorter than it was")
        return found

    def stamp(self) -> Dict[str, Any]:
        return {"size": os.stat(self._path).st_size}

    def modified(self) -> int:
        return os.stat(self._path).st_mtime_ns

    def close(self) -> None:
        self._file.close()


class _Answer(NamedTuple):
    data: bytes
    size: int
    tag: Optional[str]


class WebRanges(Ranges):
    """A file on a web server. The server has to answer ranges, and the file has to stay as it is."""

    def __init__(self, address: str) -> None:
        self._address, self._url = address, _url_of(address)
        first = self._ask(0, 1)
        self._size, self._tag = first.size, first.tag

    @property
    def size(self) -> int:
        return self._size

    def read(self, offset: int, length: int) -> bytes:
        found = self._ask(offset, length)
        if (found.size, found.tag) != (self._size, self._tag):
            raise SourceChanged(f"{self._address} isn't the file that it was")
        return found.data

    def stamp(self) -> Dict[str, Any]:
        return {"size": self._size, "tag": self._tag}

    def modified(self) -> int:
        return 0

    def _ask(self, offset: int, length: int) -> _Answer:
        """One range, asked for again where it fails for now."""
        pause, why = _PAUSE, ""
        for attempt in range(_TRIES):
            if attempt:
                time.sleep(pause)
                pause *= 2
            try:
                with _AT_ONCE:
                    return self._answer(offset, length)
            except urllib.error.HTTPError as error:
                why = f"the server says {error.code} {error.reason}"
                error.close()
                if error.code not in _FOR_NOW:
                    break
            except (ValueError, http.client.InvalidURL) as error:
                # (an address, also one that a server gives, that is none; a number of more digits than Python reads)
                why = str(error)
                break
            except (OSError, http.client.HTTPException, _Cut) as error:
                why = str(getattr(error, "reason", error)) or type(error).__name__
        raise NotASource(f"{self._address}: {why}")

    def _answer(self, offset: int, length: int) -> _Answer:
        last = offset + length - 1
        headers = {"Range": f"bytes={offset}-{last}", "Accept-Encoding": "identity"}
        with urllib.request.urlopen(urllib.request.Request(self._url, headers=headers), timeout=_SECONDS) as answer:
            if answer.status != 206:
                raise NotASource(f"{self._address}: the server answers without ranges (status {answer.status})")
            told = _CONTENT_RANGE.fullmatch(answer.headers.get("Content-Range", ""))
            if not told or (int(told[1]), int(told[2])) != (offset, last):
                raise NotASource(f"{self._address}: the server gives another range than it was asked for")
            data = answer.read(length + 1)
            if len(data) != length:
                raise _Cut(f"the server sent {len(data)} of {length} bytes")
            return _Answer(data, int(told[3]), answer.headers.get("ETag") or answer.headers.get("Last-Modified"))


def _url_of(address: str) -> str:
    """The address with all but ASCII, and spaces, as %XX. What names a place in the page that it is isn't sent."""
    try:
        parts = urllib.parse.urlsplit(address)
    except ValueError as error:
        raise NotASource(f"{address}: {error}") from None
    path, query = (urllib.parse.quote(os.fsencode(it), safe="%/:=&?~+!$,;'@()*") for it in (parts.path, parts.query))
    return parts._replace(path=path, query=query, fragment="").geturl()


class _Cut(Exception):
    """An answer that ends before it is whole."""


def ranges_of(path: str) -> Ranges:
    """Those of a path or an address. NotASource where it can't be read."""
    return WebRanges(path) if is_address(path) else FileRanges(path)
