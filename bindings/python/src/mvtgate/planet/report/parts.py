"""The script and the style of the report, and what its Content-Security-Policy calls them by."""
from __future__ import annotations

import base64
import hashlib
import json
import pathlib
from typing import Any

from markupsafe import Markup

from ..endings import Refused

_FOLDER = pathlib.Path(__file__).resolve().parent
# (a wheel has them beside this module; a checkout where tools/page puts them)
_PLACES = (_FOLDER, _FOLDER.parents[5] / "web/out")
_ENDS = ("</script", "<!--", "</style")


class ReportPartsMissing(Refused):
    """The script or the style of the report is nowhere."""


def part(name: str) -> str:
    """The text of report.js or report.css."""
    path = next((it / name for it in _PLACES if (it / name).exists()), None)
    if path is None:
        places = " nor in ".join(map(str, _PLACES))
        raise ReportPartsMissing(f"{name} of the report is neither in {places}: run tools/page in the checkout")
    text = path.read_text("utf-8")
    if any(it in text.lower() for it in _ENDS):
        raise ValueError(f"{path} has one of {', '.join(_ENDS)} in it, which would end its element in the report")
    return text


def require_parts() -> None:
    """ReportPartsMissing where a run would end without its report."""
    for name in ("report.js", "report.css"):
        part(name)


def sum_of(text: str) -> str:
    """What a Content-Security-Policy calls a script or a style by, after sha256-."""
    return base64.b64encode(hashlib.sha256(text.encode()).digest()).decode()


def embedded(text: str) -> Markup:
    """JSON as the content of a script element, which no text in it can end."""
    return Markup(text.replace("<", "\\u003c"))


def embedded_json(it: Any) -> Markup:
    """The JSON of something, likewise."""
    return embedded(json.dumps(it, separators=(",", ":")))
