"""Names of files, which may have any bytes, as text that people and readers of JSON and XML can take."""
from __future__ import annotations

INPUT = "-"


def as_text(path: str) -> str:
    r"""The name, with bytes that are no UTF-8 as \xff."""
    return path.encode("utf-8", "surrogateescape").decode("utf-8", "backslashreplace")


def on_one_line(path: str) -> str:
    r"""The name with all that isn't printable as \n, \x1b or \u202e."""
    text = "standard input" if path == INPUT else as_text(path)
    if text.isprintable():
        return text
    return "".join(it if it.isprintable() else it.encode("unicode_escape").decode("ascii") for it in text)
