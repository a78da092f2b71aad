"""Faults as Python has them, and how they are read from their texts."""
from __future__ import annotations

import json
import math
import re
from dataclasses import dataclass
from fractions import Fraction
from typing import Any, Dict, List, Mapping, Optional, Tuple, Union

from . import _words


class NotAFault(ValueError):
    """A text that isn't JSON, or isn't the text of a fault, or has a number that is out of range."""


class EmptyTile(ValueError):
    """A tile of no bytes, where one with bytes was asked for."""


class NotATile(ValueError):
    """Bytes that are no tile. `fault` is their first wire fault, of code 101 to 111."""

    def __init__(self, fault: Fault) -> None:
        super().__init__(fault)
        self.fault = fault

    def __str__(self) -> str:
        return f"not a tile: {self.fault}"


@dataclass(frozen=True)
class RingEdge:
    """An edge of a ring: the ring's number among all rings of the feature, and the edge's in the ring."""

    ring: int
    edge: int


_RING_EDGE = {"edge", "ring"}
_DIGITS = re.compile(r"0|-?[1-9][0-9]*", re.ASCII)


def _kinds_of(members: Mapping[str, Any]) -> Dict[str, str]:
    """The keys that a fault's text with this code and scope has, and what each has. LookupError where there is no such fault."""
    code = members["code"]
    if type(code) is not int:
        raise LookupError
    kinds = {"code": "number", **_words.kinds_of_fault(code)}
    return {**kinds, **_words.kinds_of_scope(members["scope"])} if "scope" in kinds else kinds


def _is_ordinal(it: object) -> bool:
    return type(it) is int and 0 <= it < 2**64


def _has_kind(kind: str, it: object) -> bool:
    """Whether this is what a key of this kind has (bindings/README.md)."""
    if kind == "scope":
        return isinstance(it, str)
    if kind == "digits":
        return isinstance(it, str) and _DIGITS.fullmatch(it) is not None and len(it) <= 40 and -(2**127) <= int(it) < 2**127
    if kind == "edge":
        return isinstance(it, dict) and set(it) == _RING_EDGE and all(map(_is_ordinal, it.values()))
    return _is_ordinal(it) and (kind != "field" or isinstance(it, int) and it < 2**32)


def _is_fault(members: object) -> bool:
    try:
        if not isinstance(members, dict):
            return False
        kinds = _kinds_of(members)
        return set(members) == set(kinds) and all(_has_kind(kinds[key], it) for key, it in members.items())
    except (LookupError, TypeError):
        return False


def _member(key: str, it: Any) -> Any:
    """A member of a text as a Fault has it."""
    if key in ("x", "y", "w"):
        return int(it)
    return RingEdge(**it) if isinstance(it, dict) else it


def _double(digits: str) -> float:
    """ValueError for what is no number, NaN too, and for one that no double comes near."""
    number = float(digits)
    if not math.isfinite(number):
        raise ValueError(f"{digits[:20]} is out of the range of numbers")
    return number


def _whole(digits: str) -> Union[int, float]:
    """A number without a fraction. (-0 is none of those that a fault has.)"""
    number = _double(digits)
    return number if digits == "-0" else int(digits)


def _object(pairs: List[Tuple[str, Any]]) -> Dict[str, Any]:
    """The members of an object: of equal keys the last counts. ValueError where there is half a surrogate pair, also in one that doesn't."""
    for it in (half for pair in pairs for half in pair if isinstance(half, str)):
        it.encode()
    return dict(pairs)


def _denoted(text: Union[str, bytes]) -> Any:
    """What a text denotes, as the program reads it: JSON in UTF-8 (RFC 8259). ValueError where it is none."""
    if not isinstance(text, (str, bytes, bytearray)):
        raise TypeError(f"a fault's text is a str or bytes, not {type(text).__name__}")
    # (of bytes json would take UTF-16, too, and a byte order mark)
    plain = str(text.encode() if isinstance(text, str) else text, "utf-8")
    return json.loads(plain, parse_int=_whole, parse_float=_double, parse_constant=_double, object_pairs_hook=_object)


@dataclass(frozen=True)
class Fault:
    """What is wrong with a tile, and where. Faults are equal where their texts are; they can be keys of a dict.

    `text` is the very text, as `mvtgate check` writes it. The other members are those of the text, all counted from 0, and None
    where such a fault has none. `first` and `second` are layers (202), or edges of rings (504) that meet at (x / w, y / w).
    `other` is the number of a hole's ring (506), or that of a polygon (507).
    """

    text: str
    code: int
    scope: Optional[str] = None
    layer: Optional[int] = None
    feature: Optional[int] = None
    value: Optional[int] = None
    at: Optional[int] = None
    field: Optional[int] = None
    index: Optional[int] = None
    polygon: Optional[int] = None
    ring: Optional[int] = None
    vertex: Optional[int] = None
    other: Optional[int] = None
    first: Union[int, RingEdge, None] = None
    second: Union[int, RingEdge, None] = None
    x: Optional[int] = None
    y: Optional[int] = None
    w: Optional[int] = None

    @classmethod
    def from_text(cls, text: Union[str, bytes]) -> Fault:
        """The fault of a text, such as a line of `mvtgate check` that was kept. NotAFault where it is none.

        Bytes are UTF-8 without a byte order mark. Spaces and the order of the keys don't matter, and of equal keys the last counts;
        `text` of the fault is the one that `check` would write.
        """
        try:
            members = _denoted(text)
        except (ValueError, RecursionError) as error:
            raise NotAFault(f"the text is not JSON, or has a number that no fault has: {error}") from None
        if not _is_fault(members):
            raise NotAFault("the text holds no fault")
        compact = json.dumps(members, separators=(",", ":"), sort_keys=True)
        return cls(compact, **{key: _member(key, it) for key, it in members.items()})

    def __str__(self) -> str:
        return f"{self.code}: {self.sentence}"

    @property
    def members(self) -> Dict[str, Any]:
        """The members as the text has them, in a dict of the caller's own."""
        loaded: Dict[str, Any] = json.loads(self.text)
        return loaded

    @property
    def title(self) -> str:
        """What the code means, in some words."""
        return _words.words_of_fault(self.code)["title"]

    @property
    def sentence(self) -> str:
        """What is wrong, in a sentence with the fault's numbers."""
        return _words.fill(_words.words_of_fault(self.code)["sentence"], self.members)

    @property
    def place(self) -> str:
        """Where it is, in words: 'layer 0, feature 2, ring 1'."""
        return _words.fill(_words.words_of_fault(self.code)["place"], self.members)

    @property
    def point(self) -> Optional[Tuple[Fraction, Fraction]]:
        """The exact point where two edges meet (504), in the tile's units; None for other codes."""
        if self.x is None or self.y is None or not self.w:
            return None
        return Fraction(self.x, self.w), Fraction(self.y, self.w)


def fault_of_library(text: str) -> Fault:
    """The fault of a text that the library wrote. It needs none of the tests of `from_text`, which take several times as long."""
    return Fault(text, **{key: _member(key, it) for key, it in json.loads(text).items()})
