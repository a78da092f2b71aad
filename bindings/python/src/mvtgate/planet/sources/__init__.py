"""Where tiles come from: MBTiles files, PMTiles archives, also on web servers, and folders with files z/x/y.mvt."""
from __future__ import annotations

import os

from ..window import Window
from .folder import Folder
from .mbtiles import Mbtiles
from .pmtiles import MAGIC, Pmtiles, is_address
from .source import NotASource, Source, SourceChanged, Stored

__all__ = ["NotASource", "Source", "SourceChanged", "Stored", "open_source"]


def _is_archive(path: str) -> bool:
    try:
        with open(path, "rb") as file:
            return file.read(len(MAGIC)) == MAGIC
    except OSError:
        return False


def open_source(path: str, window: Window = Window()) -> Source:
    """The source at a path or an address, of which the tiles of a window are judged. NotASource where there is none."""
    if os.path.isdir(path):
        return Folder(path, window)
    return Pmtiles(path, window) if is_address(path) or _is_archive(path) else Mbtiles(path, window)
