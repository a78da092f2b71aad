"""What a run keeps of its tiles: the lines of its journal, as types.

Zooms, columns and rows are those of a tile's place z/x/y: columns from the west, rows from the north. MBTiles count rows from the
south (TMS); `Place.tms_row` says that number.
"""
from __future__ import annotations

import functools
from dataclasses import dataclass, field
from typing import Any, Dict, List, Mapping, Optional, Tuple

from .further import Further
from .mending.tiles import Mending

# A cell of the report's map is a block of tiles, so that a zoom has at most this many cells in a row or column.
CELLS = 256


@dataclass(frozen=True, order=True)
class Place:
    """The place of a tile in one of the sources."""

    source: int
    zoom: int
    column: int
    row: int

    @property
    def tms_row(self) -> int:
        """The row as MBTiles count it, from the south."""
        return (1 << self.zoom) - 1 - self.row


@dataclass(frozen=True)
class Extent:
    """The tiles of a source at a zoom: how many there are, and the first and last column and row."""

    zoom: int
    tiles: int
    first_column: int
    last_column: int
    first_row: int
    last_row: int

    @functools.cached_property
    def shift(self) -> int:
        """A cell of the map has 2 ** shift columns and rows, so that there are at most CELLS in each direction."""
        shift = 0
        while max(self.last_column - self.first_column, self.last_row - self.first_row) >> shift >= CELLS:
            shift += 1
        return shift

    def cell(self, column: int, row: int) -> Tuple[int, int]:
        """The cell that a tile is in, from the corner in the north-west."""
        return (column - self.first_column) >> self.shift, (row - self.first_row) >> self.shift


@dataclass(frozen=True, order=True, slots=True)
class Partition:
    """Tiles of a source at one zoom, from the first (column, row) to the last, both included, in this order.

    `first` and `last` have rows as the source itself counts them, which is from the south in MBTiles. `tiles` is how many there
    were when the run began; a worker that finds another number reports that the source has changed.
    """

    source: int
    zoom: int
    first: Tuple[int, int]
    last: Tuple[int, int]
    tiles: int

    @classmethod
    def of(cls, members: Mapping[str, Any]) -> Partition:
        """That of a line of the journal."""
        (first_column, first_row), (last_column, last_row) = members["first"], members["last"]
        first, last = (first_column, first_row), (last_column, last_row)
        return cls(members["source"], members["zoom"], first, last, members["tiles"])

    def members(self) -> Dict[str, Any]:
        """What the journal's line has."""
        first, last = list(self.first), list(self.last)
        return {"source": self.source, "zoom": self.zoom, "first": first, "last": last, "tiles": self.tiles}

    @property
    def key(self) -> str:
        """A name that no other partition of the run has."""
        return f"{self.source}-{self.zoom}-{self.first[0]}-{self.first[1]}-{self.last[0]}-{self.last[1]}"


@dataclass
class Finding:
    """A tile that isn't valid: it has a fault, or couldn't be judged, for which `error` says why.

    `size` is that of the bytes that were judged, or those that are stored where there are none. `seconds` is the processor's time
    for judging it. `layer` is the name of the fault's layer and `feature_id` the id of its feature, and `point` longitude and latitude of its point, where it has them. `format` is
    the name of another format, where the bytes are no tile and begin as its files do. `further` has the tile's other faults, where all
    are asked for, none of which is confirmed. `mending` says what became of the tile, where refused tiles are mended.
    """

    column: int
    row: int
    size: int
    seconds: float = 0.0
    error: Optional[str] = None
    fault: Optional[Dict[str, Any]] = None
    layer: Optional[str] = None
    feature_id: Optional[int] = None
    confirmed: Optional[bool] = None
    format: Optional[str] = None
    further: Optional[Further] = None
    mending: Optional[Mending] = None
    point: Optional[List[float]] = None

    @classmethod
    def of(cls, members: Mapping[str, Any]) -> Finding:
        """That of a line of the journal."""
        found = cls(**members)
        if found.further is not None:
            found.further = Further.of(members["further"])
        if found.mending is not None:
            found.mending = Mending.of(members["mending"])
        return found

    def members(self) -> Dict[str, Any]:
        """What the journal's line has."""
        further = None if self.further is None else vars(self.further)
        return {**vars(self), "further": further, "mending": None if self.mending is None else vars(self.mending)}

    @property
    def is_mended(self) -> bool:
        return self.mending is not None and self.mending.is_mended

    @property
    def count(self) -> int:
        """How many faults of the tile are known."""
        return int(self.fault is not None) + (0 if self.further is None else self.further.count)


@dataclass(frozen=True)
class Timed:
    """A tile, how many bytes were judged, and the processor's time for it."""

    seconds: float
    column: int
    row: int
    size: int


@dataclass
class Judged:
    """All that was found in a partition: a line of the journal.

    `payloads` are the bytes of mended tiles, in the order of the findings that have some, and `block` the sums of all tiles, until
    they are in the run's store; `sums` says where the block is there, and how long. `reused` is how many tiles an earlier run had
    judged, of which the bytes are the same.
    """

    partition: Partition
    judged_by: str
    packed: int = 0
    unpacked: int = 0
    seconds: float = 0.0
    cells: List[Tuple[int, int, int]] = field(default_factory=list)
    findings: List[Finding] = field(default_factory=list)
    advice: List[Dict[str, Any]] = field(default_factory=list)
    slowest: List[Timed] = field(default_factory=list)
    confirmed_by: Optional[str] = None
    payloads: List[bytes] = field(default_factory=list)
    block: bytes = b""
    sums: Tuple[int, int] = (0, 0)
    reused: int = 0

    @property
    def faults(self) -> List[Finding]:
        """The findings that are faults."""
        return [it for it in self.findings if it.fault is not None]

    @property
    def unconfirmed(self) -> List[Finding]:
        """The faults of which the checker wasn't asked."""
        return [it for it in self.faults if it.confirmed is None]

    def members(self) -> Dict[str, Any]:
        """What the journal's line has."""
        # (`asdict` would copy each fault, at several times the cost of writing it)
        of_types: Dict[str, Any] = {
            "partition": self.partition.members(),
            "findings": [it.members() for it in self.findings],
            "slowest": [vars(it) for it in self.slowest],
        }
        members = {**vars(self), **of_types}
        del members["payloads"], members["block"]
        return members

    @classmethod
    def of(cls, members: Mapping[str, Any]) -> Judged:
        """That of a line of the journal."""
        of_types: Dict[str, Any] = {
            "partition": Partition.of(members["partition"]),
            "cells": [tuple(it) for it in members["cells"]],
            "findings": [Finding.of(it) for it in members["findings"]],
            "slowest": [Timed(**it) for it in members["slowest"]],
            "sums": tuple(members["sums"]),
        }
        return cls(**{**members, **of_types})
