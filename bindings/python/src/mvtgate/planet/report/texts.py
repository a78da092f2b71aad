"""Numbers and names as the report shows them."""
from __future__ import annotations

import datetime
import re

from markupsafe import Markup, escape

from .limits import NAME_LENGTH

_NOT_IN_HTML = re.compile("[\x00-\x1f\x7f\ud800-\udfff]")
_UNITS = ("bytes", "KiB", "MiB", "GiB", "TiB")


def digits(number: int) -> str:
    """A whole number with separators: 67,108,864."""
    return f"{number:,}"


def counted(number: int, one: str, many: str) -> str:
    """'1 tile', '2 tiles'."""
    return f"{number:,} {one if number == 1 else many}"


def size_text(size: int) -> str:
    """Bytes in the unit that makes the number short: 14.2 MiB."""
    power = 0
    while power + 1 < len(_UNITS) and size >= 1024 ** (power + 1):
        power += 1
    return counted(size, "byte", "bytes") if power == 0 else f"{size / 1024 ** power:,.1f} {_UNITS[power]}"


def time_text(seconds: float) -> str:
    """A time with as many digits as it is worth."""
    if seconds < 0.9995:
        return f"{seconds * 1000:.{0 if seconds >= 0.00995 else 2}f} ms"
    if seconds < 59.95:
        return f"{seconds:.1f} s"
    whole, minutes, hours = round(seconds), round(seconds / 60), round(seconds / 3600)
    if whole < 3600:
        return f"{whole // 60} min {whole % 60} s"
    return f"{minutes // 60} h {minutes % 60} min" if hours < 48 else f"{hours // 24} d {hours % 24} h"


def moment_text(iso: str) -> str:
    """A moment of the form 2026-03-01T12:00:00+00:00 in words, or as it is where it has another form."""
    try:
        moment = datetime.datetime.fromisoformat(iso)
    except ValueError:
        return iso
    return f"{moment:%Y-%m-%d %H:%M} {moment.tzname() or ''}".rstrip()


def rate_text(count: int, seconds: float) -> str:
    """How many there were in a second."""
    rate = count / seconds if seconds > 0 else 0.0
    return f"{rate:,.0f}" if rate >= 10 else f"{rate:.1f}"


def share_text(part: int, whole: int) -> str:
    """A share in percent, which is 0% or 100% only where it is exactly that."""
    if part == 0 or whole == 0:
        return "0%"
    if part == whole:
        return "100%"
    percent = 100 * part / whole
    if percent < 0.01:
        return "< 0.01%"
    return f"{min(percent, 99.99):.2f}%" if percent < 1 or percent > 99 else f"{percent:.1f}%"


def readable(text: str) -> str:
    """A text in which what HTML can't have, control characters and halves of surrogate pairs, is U+FFFD."""
    return _NOT_IN_HTML.sub("\ufffd", text)


def cut(text: str) -> str:
    """A readable text, or its beginning where it is long."""
    return readable(text if len(text) <= NAME_LENGTH else f"{text[: NAME_LENGTH - 1]}…")


def prose(text: str) -> Markup:
    """A text in which names of programs and formats stand between backquotes."""
    parts = (Markup("<code>{}</code>").format(part) if at % 2 else escape(part) for at, part in enumerate(text.split("`")))
    return Markup("").join(parts)


def breakable(text: str) -> Markup:
    """A text of JSON that may be broken after each comma."""
    return Markup("<wbr>").join(f"{part}," if at < text.count(",") else part for at, part in enumerate(text.split(",")))


def capital(text: str) -> str:
    """A text with a capital letter in front."""
    return text[:1].upper() + text[1:]
