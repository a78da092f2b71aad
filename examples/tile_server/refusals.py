"""Answers without a tile, as JSON, which no cache may keep."""
from __future__ import annotations

from typing import Any

from aiohttp import hdrs, web

from .gate import told
from .publishing import Refused
from .tiles import Address

# when to ask again for what may be there in a moment, and for a tile that takes long each time
SOON_SECONDS, LATER_SECONDS = 2, 30


def refusal(status: int, error: str, address: Address, **more: Any) -> web.Response:
    """An answer without a tile."""
    place = {"z": address.zoom, "x": address.column, "y": address.row}
    return web.json_response({"error": error, "tile": place, **more}, status=status, headers={hdrs.CACHE_CONTROL: "no-store"})


def refusal_for_now(error: str, address: Address, seconds: int) -> web.Response:
    """An answer without a tile, which can be asked for again after so many seconds."""
    answer = refusal(503, error, address)
    answer.headers[hdrs.RETRY_AFTER] = str(seconds)
    return answer


def refusal_of_fault(refused: Refused, address: Address) -> web.Response:
    """The answer in place of a tile that didn't pass the gate."""
    row = {"row": refused.row.told} if refused.row else {}
    return refusal(500, "the tile did not pass the gate", address, **row, **told(refused.reason))
