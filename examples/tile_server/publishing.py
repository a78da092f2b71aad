"""What becomes of a tile: asked for, judged, perhaps mended, and published or refused. All of this blocks, so call it in a thread."""
from __future__ import annotations

import contextlib
import json
import logging
import os
import pathlib
import tempfile
from dataclasses import dataclass
from typing import Optional, Sequence, Union

import mvtgate
from mvtgate import Fault, Mended

from .gate import OUT_OF_MEMORY, Gate, Reason
from .metrics import Metrics, labels_of
from .rows import Row, RowChange, changes_of, logged, row_of
from .tiles import Address, Tile, Tiles

_log = logging.getLogger(__name__)


@dataclass(frozen=True)
class Published:
    """A tile that is sent. `changes` are what was mended in it; `reported` is why it didn't pass, where it is sent all the same."""

    tile: bytes
    changes: Sequence[RowChange] = ()
    reported: Optional[Reason] = None


@dataclass(frozen=True)
class Refused:
    """Why there is no tile to be sent, and the row at fault, where it is of one."""

    reason: Reason
    row: Optional[Row]


Outcome = Union[Published, Refused]


def _keep_file(path: pathlib.Path, content: bytes) -> None:
    """Writes a file that everybody may read: aside, and then moved, so that nobody reads a half of it."""
    number, name = tempfile.mkstemp(dir=path.parent)
    try:
        with open(number, "wb") as file:
            file.write(content)
        os.chmod(name, 0o644)
        os.replace(name, path)
    except OSError:
        # (as where the disk is full)
        with contextlib.suppress(OSError):
            os.unlink(name)
        raise


def keep(folder: pathlib.Path, address: Address, tile: bytes, fault: Fault) -> None:
    """Leaves a faulty tile, and its fault's text, for whoever looks into it. The last ones of an address are kept."""
    name = str(address).replace("/", "-")
    _keep_file(folder / f"{name}.mvt", tile)
    _keep_file(folder / f"{name}.json", fault.text.encode())


@dataclass(frozen=True)
class Publisher:
    """Makes tiles and has them judged. Where it only reports, it sends also those that don't pass. Without a gate, which is for
    measurements alone, it publishes whatever comes."""

    tiles: Tiles
    gate: Optional[Gate]
    only_reports: bool
    kept: Optional[pathlib.Path]
    metrics: Metrics

    def publish(self, address: Address) -> Outcome:
        """A tile to be sent, or why there is none."""
        with self.metrics.timed_query():
            tile = self.tiles.fetch(address)
        if self.gate is None:
            return Published(tile.content)
        judged = self._judged(self.gate, tile)
        if isinstance(judged, Mended):
            return self._mended(self.gate, address, tile, judged) if judged.changed else Published(judged.tile)
        self._keep(address, tile, judged)
        return self._reported(address, tile, judged) if self.only_reports else self._refused(address, tile, judged)

    def _judged(self, gate: Gate, tile: Tile) -> Union[Mended, Reason]:
        """What the gate says. Where it can't say anything, and the tile is sent all the same, that is a reason too."""
        try:
            with self.metrics.check_seconds.time():
                return gate.judged(tile.content)
        except MemoryError:
            if self.only_reports:
                return OUT_OF_MEMORY
            raise

    def _mended(self, gate: Gate, address: Address, tile: Tile, mended: Mended) -> Published:
        self._keep_faulty(gate, address, tile)
        changes = changes_of(tile, mended)
        _log.warning("tile %s mended: %s", address, json.dumps([it.told for it in changes]))
        self.metrics.count_mended(address, changes)
        return Published(mended.tile, changes)

    def _reported(self, address: Address, tile: Tile, reason: Reason) -> Published:
        _log.warning("tile %s sent all the same: %s", address, logged(reason, row_of(tile, reason)))
        self.metrics.reported.labels(*labels_of(address, tile, reason)).inc()
        return Published(tile.content, reported=reason)

    def _refused(self, address: Address, tile: Tile, reason: Reason) -> Refused:
        row = row_of(tile, reason)
        _log.error("tile %s refused: %s", address, logged(reason, row))
        self.metrics.refused.labels(*labels_of(address, tile, reason)).inc()
        return Refused(reason, row)

    def _keep_faulty(self, gate: Gate, address: Address, tile: Tile) -> None:
        """Keeps a tile that was mended, as it came, with the fault that it had."""
        with contextlib.suppress(MemoryError):
            if self.kept is not None:
                self._keep(address, tile, mvtgate.check(tile.content, gate.profile, quick=True))

    def _keep(self, address: Address, tile: Tile, reason: Optional[Reason]) -> None:
        if self.kept is None or not isinstance(reason, Fault):
            return
        try:
            keep(self.kept, address, tile.content, reason)
        except OSError as error:
            _log.error("tile %s not kept: %s", address, error)
