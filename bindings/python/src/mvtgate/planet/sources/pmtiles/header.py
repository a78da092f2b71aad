"""The header of a PMTiles archive, its first 127 bytes (PMTiles specification, version 3, section 3)."""
from __future__ import annotations

import struct
from typing import NamedTuple

from ..source import NotASource

SIZE = 127
MAGIC = b"PMTiles"
VERSION = 3
# numbers for how directories and tiles are packed
UNKNOWN, NONE, GZIP, ZSTD = 0, 1, 2, 4
PACKINGS = {UNKNOWN: "in an unknown way", NONE: "not at all", GZIP: "by gzip", 3: "by brotli", ZSTD: "by Zstandard"}
# numbers for what the tiles are
VECTOR = 1
KINDS = {0: "of an unknown kind", VECTOR: "vector tiles", 2: "PNG pictures", 3: "JPEG pictures", 4: "WebP pictures", 5: "AVIF pictures"}
_FORM = struct.Struct("<7sB11Q6Bii ii B ii".replace(" ", ""))


class Section(NamedTuple):
    """A part of the archive: its first byte and its length."""

    offset: int
    length: int


class Header(NamedTuple):
    """What the header says. Counts are 0 where the writer didn't know them; bounds and center are in 1e-7 degrees."""

    root: Section
    metadata: Section
    leaves: Section
    data: Section
    addressed: int
    entries: int
    contents: int
    is_clustered: bool
    directories: int
    tiles: int
    kind: int
    first_zoom: int
    last_zoom: int
    bounds: tuple[int, int, int, int]
    center_zoom: int
    center: tuple[int, int]

    @classmethod
    def of(cls, head: bytes) -> Header:
        """That of an archive's first bytes. NotASource where they are of no archive of this version, or of one of pictures."""
        if len(head) < SIZE or head[:7] != MAGIC:
            raise NotASource("it is no PMTiles archive")
        if head[7] != VERSION:
            raise NotASource(f"it is a PMTiles archive of version {head[7]}, and only version {VERSION} is read")
        numbers = _FORM.unpack(head[:SIZE])[2:]
        root, metadata, leaves, data = (Section(*numbers[at : at + 2]) for at in range(0, 8, 2))
        addressed, entries, contents, clustered, directories, tiles, kind, first, last, *rest = numbers[8:]
        if directories not in (NONE, GZIP):
            raise NotASource(f"its directories are packed {PACKINGS.get(directories, 'in an unknown way')}; gzip and none are read")
        # (of those that are read, and where the writer didn't know it, each tile's first bytes say how it is packed)
        if tiles not in (UNKNOWN, NONE, GZIP, ZSTD):
            raise NotASource(f"its tiles are packed {PACKINGS.get(tiles, 'in an unknown way')}; gzip, Zstandard and none are read")
        if kind not in (0, VECTOR):
            raise NotASource(f"its tiles are no vector tiles, but {KINDS.get(kind, 'of an unknown kind')}")
        west, south, east, north, center_zoom, longitude, latitude = rest
        bounds, center = (west, south, east, north), (longitude, latitude)
        counts, zooms = (addressed, entries, contents), (first, last)
        return cls(root, metadata, leaves, data, *counts, clustered == 1, directories, tiles, kind, *zooms, bounds, center_zoom, center)

    def packed(self) -> bytes:
        """The bytes of this header."""
        sections = [it for section in (self.root, self.metadata, self.leaves, self.data) for it in section]
        flags = (int(self.is_clustered), self.directories, self.tiles, self.kind, self.first_zoom, self.last_zoom)
        return _FORM.pack(
            MAGIC, VERSION, *sections, self.addressed, self.entries, self.contents, *flags, *self.bounds, self.center_zoom, *self.center
        )
