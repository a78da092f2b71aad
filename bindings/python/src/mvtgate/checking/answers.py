"""What came of a tile."""
from __future__ import annotations

import io
import itertools
import json
from dataclasses import dataclass
from typing import Iterable, Iterator, List, NamedTuple, Optional, Sequence

from .._faults import Fault, fault_of_library
from .._formats import Format
from ..planet.geojson import Address
from .._library import lines_of
from .mending import Mending
from .names import on_one_line


_json_of = json.JSONEncoder(separators=(",", ":")).encode


class About(NamedTuple):
    """Where a fault's tile is, and what of it the fault is about: a layer, a feature and a point, where it has them."""

    address: Address
    layer: Optional[str]
    feature_id: Optional[int]
    point: Optional[List[float]]


@dataclass(frozen=True)
class Abouts:
    """The same of all faults of a tile, as short as their texts: a line of JSON for each, since there may be very many."""

    address: Address
    lines: str

    @classmethod
    def of(cls, address: Address, abouts: Iterable[About]) -> Abouts:
        """Those that are given, one at a time."""
        lines = io.StringIO()
        for it in abouts:
            lines.write(f"{_json_of([it.layer, it.feature_id, it.point])}\n")
        return cls(address, lines.getvalue())

    def each(self) -> Iterator[About]:
        return (About(self.address, *json.loads(it)) for it in lines_of(self.lines))


@dataclass(frozen=True)
class Answer:
    """A fault, or the reason why a tile wasn't judged, or neither where it is valid.

    `place` is z/x/y for a tile of an MBTiles file. `format` is what the bytes are instead of a tile, where they begin so, and
    `confirmed` what the separate checker says of the fault, where it was asked. `is_further` says that the tile has had an
    answer already, and `mending` what became of it, where it was to be mended, with the first answer. `about` is there where it is asked
    for and the tile's place is known.
    """

    file: str
    place: Optional[str] = None
    fault: Optional[Fault] = None
    format: Optional[Format] = None
    confirmed: Optional[bool] = None
    error: Optional[str] = None
    is_further: bool = False
    mending: Optional[Mending] = None
    about: Optional[About] = None

    @property
    def is_valid(self) -> bool:
        return self.fault is None and self.error is None

    @property
    def name(self) -> str:
        """File and place, on one line."""
        return on_one_line(self.file) if self.place is None else f"{on_one_line(self.file)} {self.place}"

    @property
    def sentence(self) -> str:
        """What is wrong, in a sentence or two."""
        if self.fault is None:
            return self.error or "valid"
        other = f" {self.format.sentence}" if self.format else ""
        return f"{self.fault.sentence}{other}"


@dataclass(frozen=True)
class Verdict:
    """The same of all faults that were asked for, as one process hands it to another: short, since there may be very many.

    `lines` has their texts, and `confirmed` says of each what the separate checker says.
    """

    file: str
    place: Optional[str] = None
    lines: str = ""
    format: Optional[Format] = None
    confirmed: Optional[Sequence[bool]] = None
    error: Optional[str] = None
    mending: Optional[Mending] = None
    abouts: Optional[Abouts] = None

    def answers(self) -> Iterator[Answer]:
        """An answer for each fault, or one where there is none."""
        if not self.lines:
            yield Answer(self.file, self.place, error=self.error)
        each: Iterable[Optional[bool]] = itertools.repeat(None) if self.confirmed is None else self.confirmed
        abouts: Iterable[Optional[About]] = itertools.repeat(None) if self.abouts is None else self.abouts.each()
        for at, (text, confirmed, about) in enumerate(zip(lines_of(self.lines), each, abouts)):
            fault = fault_of_library(text)
            mending = None if at else self.mending
            yield Answer(self.file, self.place, fault, self.format, confirmed, is_further=at > 0, mending=mending, about=about)
