"""The copy of a folder with files z/x/y: all of its files, of which those with a mended tile have other bytes."""
from __future__ import annotations

import os
import shutil
import stat
from typing import Iterator

from ..._files import ENDINGS
from .copy import Copy, NoCopy, Replaced


class CopyOfFolder(Copy):
    """Links are followed, so that nothing in it leads back to the source."""

    def check(self) -> None:
        if not os.path.isdir(self.source):
            raise NoCopy(f"{self.source}: there is no such folder")

    def fill(self, tiles: Iterator[Replaced]) -> None:
        shutil.copytree(self.source, self.part, copy_function=_copied, ignore_dangling_symlinks=True)
        for it in tiles:
            self._replace(it)
        # (all at once: there may be millions)
        os.sync()

    def _replace(self, it: Replaced) -> None:
        """The files of a place with these bytes. (There may be several of them, by several endings.)"""
        folder = os.path.join(self.part, str(it.place.zoom), str(it.place.column))
        for path in (os.path.join(folder, f"{it.place.row}{ending}") for ending in ENDINGS):
            if os.path.isfile(path) and _read(path) == it.before:
                with open(path, "wb") as file:
                    file.write(it.after)


def _copied(source: str, path: str) -> None:
    """A file with its time. Its owner may write to it, since the mended tile is to be put into it."""
    shutil.copy2(source, path)
    os.chmod(path, stat.S_IMODE(os.stat(path).st_mode) | stat.S_IWUSR)


def _read(path: str) -> bytes:
    with open(path, "rb") as file:
        return file.read()
