"""PMTiles archives, by their public specification: header, directories, tile ids, and ranges of a file or of a web server."""
from __future__ import annotations

from .archive import Pmtiles
from .header import MAGIC
from .ranges import is_address

__all__ = ["MAGIC", "Pmtiles", "is_address"]
