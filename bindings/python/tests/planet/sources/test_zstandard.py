"""How tiles that are packed by Zstandard are unpacked, as far as Debian's python3-zstandard is there; and what is said where it isn't."""
from __future__ import annotations

import sys
from typing import Any, Dict

import pytest

from mvtgate._files import LIMIT
from mvtgate.planet.unpack import NotUnpacked, unpacked

TILE = bytes(range(256)) * 5 + bytes(1000)
# a frame of its own: no content size, no checksum, a window of 1 KiB, and an empty last block (RFC 8878)
EMPTY = bytes.fromhex("28b52ffd 00 00 010000")


@pytest.fixture
def zstandard() -> Any:
    return pytest.importorskip("zstandard")


def test_unpacked(zstandard: Any) -> None:
    """By each level, and with and without the numbers that a frame may have."""
    assert unpacked(EMPTY) == b""
    for tile in (b"", TILE, bytes(100_000)):
        for level in (1, 3, 19, 22):
            for has_size in (True, False):
                packer = zstandard.ZstdCompressor(level=level, write_content_size=has_size, write_checksum=has_size)
                assert unpacked(packer.compress(tile)) == tile


def test_each_cut_is_told(zstandard: Any) -> None:
    packed = zstandard.ZstdCompressor(write_content_size=False).compress(TILE)
    for end in range(4, len(packed)):
        with pytest.raises(NotUnpacked, match="the Zstandard stream is cut"):
            unpacked(packed[:end])
    for more in (1, 5000):
        with pytest.raises(NotUnpacked, match=f"there are {more} bytes after the end of the Zstandard stream"):
            unpacked(packed + bytes(more))
    with pytest.raises(NotUnpacked, match="the Zstandard stream is broken"):
        unpacked(b"\x28\xb5\x2f\xfdno frame")


def test_greatest_tile(zstandard: Any) -> None:
    """To the byte; of one that is larger no more than that is unpacked."""
    packer = zstandard.ZstdCompressor(level=1)
    assert len(unpacked(packer.compress(bytes(LIMIT)))) == LIMIT
    for size in (LIMIT + 1, 3 * LIMIT):
        with pytest.raises(NotUnpacked, match=f"larger than {LIMIT} bytes"):
            unpacked(packer.compress(bytes(size)))


def test_without_the_module(monkeypatch: pytest.MonkeyPatch) -> None:
    modules: Dict[str, Any] = sys.modules
    monkeypatch.setitem(modules, "zstandard", None)
    with pytest.raises(NotUnpacked, match=r"packed by Zstandard, and zstandard isn't installed \(Debian's package python3-zstandard\)"):
        unpacked(EMPTY)
