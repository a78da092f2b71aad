"""What lets scripts of other sites have the tiles: the headers by which browsers ask for it (CORS)."""
from __future__ import annotations

from typing import Dict

from aiohttp import hdrs, web

from .bodies import DROPPED_HEADER, FAULT_HEADER, MENDED_HEADER

# (the rest is for those who run the server)
_SHARED = "/tiles"
# what a script may read beside what it always may
_EXPOSED = ", ".join([hdrs.ETAG, hdrs.RETRY_AFTER, MENDED_HEADER, DROPPED_HEADER, FAULT_HEADER])
# what a browser is told that asks before it sends a request with other headers than usual, such as If-None-Match
_PREFLIGHT: Dict[str, str] = {
    hdrs.ALLOW: "GET,HEAD,OPTIONS",
    hdrs.ACCESS_CONTROL_ALLOW_METHODS: "GET, HEAD",
    hdrs.ACCESS_CONTROL_ALLOW_HEADERS: "*",
    hdrs.ACCESS_CONTROL_MAX_AGE: "86400",
}


class Sharing:
    """Shares tiles with one origin, such as `https://map.example`, or by `*` with all."""

    def __init__(self, origin: str) -> None:
        self._headers: Dict[str, str] = {hdrs.ACCESS_CONTROL_ALLOW_ORIGIN: origin, hdrs.ACCESS_CONTROL_EXPOSE_HEADERS: _EXPOSED}

    async def mark(self, request: web.Request, response: web.StreamResponse) -> None:
        """Marks each answer about tiles, so that a script can read also why there is none."""
        if request.path.startswith(_SHARED):
            response.headers.update(self._headers)

    @staticmethod
    async def preflight(_: web.Request) -> web.Response:
        """The answer to OPTIONS."""
        return web.Response(status=204, headers=_PREFLIGHT)
