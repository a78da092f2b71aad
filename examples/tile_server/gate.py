"""The gate: which tile may be sent, perhaps a mended one, and why none may."""
from __future__ import annotations

import enum
import json
from dataclasses import dataclass
from typing import Any, Dict, Union

import mvtgate
from mvtgate import Fault, Mended, Profile


@dataclass(frozen=True)
class Unjudged:
    """Why nothing is known of a tile."""

    code: str
    title: str
    sentence: str

    @property
    def text(self) -> str:
        """The same for programs, as JSON."""
        return json.dumps({"unjudged": self.code}, separators=(",", ":"))


OUT_OF_MEMORY = Unjudged("out_of_memory", "Out of memory", "memory for the check was refused")

# why a tile doesn't pass
Reason = Union[Fault, Unjudged]


class Mending(enum.Enum):
    """What is done about polygons that break the rules; by OR_DROP features are left out that can't be mended."""

    NOT = enum.auto()
    ALL = enum.auto()
    OR_DROP = enum.auto()


@dataclass(frozen=True)
class Gate:
    """Judges tiles by a profile, up to a length.

    Quick verdicts take a time that grows as n log n with the tile. By Profile.FEATURE exact ones may take its square, and name the
    feature's first fault also where its edges meet. A tile whose polygons are to be mended gets an exact one.
    """

    profile: Profile
    max_bytes: int
    is_exact: bool = False
    mending: Mending = Mending.NOT

    def judged(self, tile: bytes) -> Union[Mended, Reason]:
        """The tile that may be sent, with what was changed for it, or why there is none. MemoryError where memory was refused: then
        nothing is known of the tile."""
        if len(tile) > self.max_bytes:
            # (to judge it could take too long)
            sentence = f"the tile has {len(tile)} bytes, and {self.max_bytes} are the limit"
            return Unjudged("too_long", "Tile too long", sentence)
        if self.mending is Mending.NOT:
            return mvtgate.check(tile, self.profile, quick=not self.is_exact) or Mended(tile)
        try:
            return mvtgate.mend(tile, self.profile, drop=self.mending is Mending.OR_DROP)
        except mvtgate.Refused as refused:
            return refused.fault


def told(reason: Reason) -> Dict[str, Any]:
    """A reason as JSON. `fault` is the fault's own text, which `mvtgate confirm` takes."""
    if isinstance(reason, Unjudged):
        return {"title": reason.title, "explanation": [reason.sentence]}
    return {
        "code": reason.code,
        "title": reason.title,
        "place": reason.place,
        "explanation": mvtgate.explain(reason).splitlines(),
        "fault": reason.members,
    }
