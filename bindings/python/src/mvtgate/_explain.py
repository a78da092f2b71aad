"""Faults and advice in plain words."""
from __future__ import annotations

from typing import TYPE_CHECKING, List, Optional, Union

from . import _words
from ._advice import Advice
from ._faults import Fault
from ._formats import Format, format_of

if TYPE_CHECKING:
    from _typeshed import ReadableBuffer


def reasons(fault: Fault, other: Optional[Format]) -> List[str]:
    """What causes a fault and what to do, in two lines: those of the other format, where the bytes begin so."""
    if other is not None:
        return [other.sentence, f"What to do: {other.remedy}"]
    words = _words.words_of_fault(fault.code)
    return [f"Cause: {words['cause']}", f"What to do: {words['remedy']}"]


def explanation(fault: Fault, other: Optional[Format]) -> str:
    """What `explain` says of a fault of bytes that begin as another format's do, or as none's."""
    return _lines(f"{fault.code}: {fault.title}", fault.sentence, reasons(fault, other))


def _lines(head: str, sentence: str, others: List[str]) -> str:
    return "\n".join([head, sentence, *others, f"({_words.words()['counting']})"])


def explain(it: Union[Fault, Advice], tile: Optional[ReadableBuffer] = None) -> str:
    """Title, sentence, what causes it and what to do, in five lines without a line's end after the last.

    With the tile's bytes, where they are those of another format such as gzip (`format_of`), the third line names it, and the
    fourth says what to do about that.
    """
    if isinstance(it, Fault):
        return explanation(it, None if tile is None else format_of(it, tile))
    if not isinstance(it, Advice):
        hint = ": a valid tile, for which check gives None, has nothing to explain" if it is None else ""
        raise TypeError(f"explain takes a mvtgate.Fault or a mvtgate.Advice, not {type(it).__name__}{hint}")
    words = _words.words_of_advice(it.kind)
    others = [f"Cause: {words['cause']}", f"What to do: {words['remedy']}"]
    return _lines(f"{it.kind}: {words['title']}", it.sentence, others)
