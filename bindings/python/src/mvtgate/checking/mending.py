"""Mended copies of files with a tile: where they go, and what became of each tile that was refused."""
from __future__ import annotations

import errno
import json
import os
from dataclasses import dataclass, field
from typing import Any, Dict, List, Optional, Sequence, Tuple

import mvtgate

from .. import _library
from .._faults import Fault, fault_of_library
from ..planet.pack import packed_as
from .names import on_one_line
from .pieces import Raw

_ARCHIVED = "mvtgate-planet --mend is for MBTiles files and PMTiles archives"


class NoFolder(Exception):
    """A folder into which nothing is written, with the reason."""


@dataclass(frozen=True)
class Mending:
    """What became of a tile that was refused: its changes, as the library reports them, or why it wasn't mended.

    `stays` is the text of the fault for which it wasn't, where there is one.
    """

    changed: List[Dict[str, Any]] = field(default_factory=list)
    stays: Optional[str] = None
    reason: Optional[str] = None

    @property
    def is_mended(self) -> bool:
        return self.reason is None

    def count(self, what: str) -> int:
        """How many features were "mended", or "dropped"."""
        return sum(it["what"] == what for it in self.changed)

    @property
    def fault(self) -> Optional[Fault]:
        return None if self.stays is None else fault_of_library(self.stays)

    def words(self, told: Fault) -> str:
        """What a line says of it that tells a fault already."""
        if self.reason is not None:
            return "not mended" if self.fault == told else f"not mended: {self.reason}"
        dropped = self.count("dropped")
        said = [f"{self.count('mended')} feature{'' if self.count('mended') == 1 else 's'}"] + [f"{dropped} left out"] * (dropped > 0)
        return f"mended: {', '.join(said)}"

    @property
    def members(self) -> Dict[str, Any]:
        """What a line of JSON says of it."""
        if self.is_mended:
            return {"mended": True, "changed": self.changed}
        fault = self.fault
        return {"mended": False, **({} if fault is None else {"stays": fault.members})}


@dataclass(frozen=True)
class Copies:
    """Where the copies go. A file of a folder that is named has its name from there on, and another one its last name."""

    folder: str
    roots: Tuple[str, ...]
    is_dropping: bool

    @classmethod
    def of(cls, folder: str, words: Sequence[str], is_dropping: bool) -> Copies:
        """Into a folder that is made, or has nothing in it. NoFolder where it could hold what is judged."""
        roots = [it for it in words if os.path.isdir(it)]
        for root in roots:
            if os.path.commonpath([os.path.realpath(root), os.path.realpath(folder)]) == os.path.realpath(root):
                raise NoFolder(f"{on_one_line(folder)} lies in a folder that is judged; name another one for the mended tiles")
        os.makedirs(folder, exist_ok=True)
        with os.scandir(folder) as entries:
            if any(entries):
                raise NoFolder(f"{on_one_line(folder)} isn't empty; name a new folder for the mended tiles")
        return cls(folder, tuple(os.path.join(it, "") for it in roots), is_dropping)

    def path_of(self, file: str) -> str:
        """Where the copy of a file is."""
        root = next((it for it in self.roots if file.startswith(it)), None)
        return os.path.join(self.folder, os.path.basename(file) if root is None else file[len(root) :].lstrip("/"))

    def mend(self, raw: Raw, tile: bytes, profile: mvtgate.Profile) -> Mending:
        """Mends a tile that is refused, and writes the copy of its file. OSError, with the name, where it can't be written."""
        if raw.place is not None:
            return Mending(reason=_ARCHIVED)
        status, mended, text = _library.mend(profile, tile, self.is_dropping)
        if status == _library.NO:
            return Mending(stays=text, reason=fault_of_library(text).sentence.rstrip("."))
        _write(self.path_of(raw.file), packed_as(raw.data, mended))
        changed: List[Dict[str, Any]] = json.loads(text)["changed"]
        return Mending(changed)


def _write(path: str, data: bytes) -> None:
    """A whole file, which isn't there yet."""
    os.makedirs(os.path.dirname(path) or ".", exist_ok=True)
    part = f"{path}.part"
    with open(part, "xb") as file:
        try:
            # (two files may have one name; while there is the part nobody else writes this one)
            if os.path.lexists(path):
                raise FileExistsError(errno.EEXIST, "two files that were judged have this name", path)
            file.write(data)
            file.flush()
            os.replace(part, path)
        except OSError as error:
            os.unlink(part)
            error.filename = path
            raise
