from typing import Optional, Tuple

from _typeshed import ReadableBuffer

class Library:
    """A loaded libmvtgate, found by a path, or by a name that the system's loader looks for. OSError where there is none,
    AttributeError, with the function's name, where it has no such function.

    The calls on a tile raise TypeError where it has no contiguous bytes, MemoryError where memory was refused, and RuntimeError for a
    status that isn't known.
    """

    def __new__(cls, name: str, /) -> Library: ...
    def check(self, profile: int, tile: ReadableBuffer, is_quick: bool, /) -> Optional[str]:
        """None for a valid tile, or the text of its first fault, or of the quick one."""

    def faults(self, profile: int, tile: ReadableBuffer, is_quick: bool, /) -> str:
        """A line for each fault of a tile, each with its end."""

    def dump(self, tile: ReadableBuffer, /) -> Tuple[bool, str]:
        """Whether the bytes are a tile, and the dump, or the text of the first wire fault."""

    def advise(self, tile: ReadableBuffer, /) -> Tuple[bool, str]:
        """Whether the bytes are a tile, and the advice, or the text of the first wire fault."""

    def mend(self, profile: int, tile: ReadableBuffer, is_dropping: bool, /) -> Tuple[int, bytes, str]:
        """OK for a valid tile, MENDED with the bytes of the mended one and the report, or NO with the text of the fault for which it
        is refused. The bytes and the text are empty without one."""

    def confirm(self, profile: int, tile: ReadableBuffer, text: bytes, /) -> int:
        """OK where the fault of the text is true of the tile, NO where it isn't, NOT_JSON, NOT_A_FAULT or OUT_OF_RANGE where the text
        is no fault."""

    def head(self, tile: ReadableBuffer, most: int, /) -> bytes:
        """The first bytes of a tile, at most so many."""

    def version(self) -> int:
        """10000 * major + 100 * minor + patch."""
