"""Tiles that are made by hand, of layers whose names and features whose ids are known."""
from __future__ import annotations

from conftest import varint


def block(number: int, payload: bytes) -> bytes:
    return varint(number << 3 | 2) + varint(len(payload)) + payload


def point(identity: int, is_valid: bool) -> bytes:
    """A feature of one point; where it isn't valid its MoveTo has a count of 0."""
    return block(2, b"\x08" + varint(identity) + b"\x18\x01\x22\x03" + (b"\x09" if is_valid else b"\x01") + b"\x32\x22")


def layer(name: str, version: int, *features: bytes) -> bytes:
    return block(3, b"\x78" + varint(version) + block(1, name.encode()) + b"".join(features))


# (two squares with the corners (0, 0) and (10, 10), and (5, 5) and (15, 15))
SQUARES = block(2, b"\x08\x63\x18\x03\x22\x16\x09\x00\x00\x1a\x14\x00\x00\x14\x13\x00\x0f\x09\x0a\x09\x1a\x14\x00\x00\x14\x13\x00\x0f")
MADE = b"".join([
    layer("water", 2, point(7, True), point(8, False), SQUARES),
    layer("roads", 1, point(9, False)),
    layer("water", 2),
    layer("ä", 2, point(10, True), point(11, True), point(12, False)),
])
