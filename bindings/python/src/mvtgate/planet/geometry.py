"""The rings of a feature, for its bounds and its picture (MVT 2.1 section 4.3)."""
from __future__ import annotations

from typing import Iterator, List, Optional, Tuple

from .wire import GEOMETRY, repeated

Position = Tuple[int, int]
_MOVE_TO, _LINE_TO, _CLOSE_PATH = 1, 2, 7


def _steps(feature: memoryview) -> Iterator[Tuple[int, int, int]]:
    """The command and the position of each step, up to the first one that can't be read."""
    left = repeated(feature, GEOMETRY)
    x = y = 0
    for number in left:
        command, count = number & 7, number >> 3
        if command == _CLOSE_PATH:
            continue
        if command not in (_MOVE_TO, _LINE_TO):
            return
        for _, across, down in zip(range(count), left, left):
            x, y = x + (across >> 1 ^ -(across & 1)), y + (down >> 1 ^ -(down & 1))
            yield command, x, y


def rings_of(feature: memoryview) -> List[List[Position]]:
    """What is drawn, each part from its MoveTo on."""
    parts: List[List[Position]] = []
    for command, x, y in _steps(feature):
        if command == _MOVE_TO or not parts:
            parts.append([])
        parts[-1].append((x, y))
    return parts


def box_of(feature: memoryview) -> Optional[Tuple[int, int, int, int]]:
    """The least and the greatest coordinates. None where there is no position."""
    positions = [(x, y) for _, x, y in _steps(feature)]
    if not positions:
        return None
    across, down = zip(*positions)
    return min(across), min(down), max(across), max(down)
