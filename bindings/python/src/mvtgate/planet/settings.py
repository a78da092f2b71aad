"""What the words of the command ask for."""
from __future__ import annotations

from dataclasses import dataclass
from typing import List, Optional, Tuple

from .window import Window


@dataclass(frozen=True)
class Settings:
    """What is judged, how, and by whom. `partition` is how many tiles a worker gets at a time, where the words say so, `mend` where the
    copy goes in which refused tiles are mended, and `since` the folder of an earlier run."""

    paths: List[str]
    output: str
    profile: str
    has_advice: bool
    has_all: bool
    workers: int
    scheduler: Optional[str]
    partition: Optional[int]
    is_anew: bool
    mend: Optional[str] = None
    is_dropping: bool = False
    since: Optional[str] = None
    window: Window = Window()
    layers: Tuple[str, ...] = ()
    junit: Optional[str] = None
