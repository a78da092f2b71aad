"""A call of memory_runs with its answer, for tests/memory."""
import pathlib
from typing import NamedTuple

TOP = pathlib.Path(__file__).resolve().parents[2]

# What memory_runs prints where memory is refused to the call, to an engine, or to what the call is made on.
REFUSED = "memory refused"
NOTHING_WRITTEN = "memory refused, 0 bytes written"
NO_INPUT = "no memory for the input"


class Call(NamedTuple):
    """A call with its answer: the words, standard input, what is printed where memory is refused to the call, other
    answers that are as right, and what to call it, if not by its answer."""

    words: str
    given: bytes
    answer: str
    refusals: tuple = (REFUSED,)
    asks: bool = True
    others: tuple = ()
    name: str = ""


def tile(name):
    return (TOP / f"tiles/{name}.mvt").read_bytes()


def mended(out, what, layer=0, feature=0):
    """A mended tile in which one feature changed, as Rust's Debug writes it."""
    change = f"FeatureChange {{ layer: {layer}, feature: {feature}, what: {what} }}"
    return f"Mended(MendedTile {{ bytes: {list(out)}, changes: [{change}] }})"
