"""What a map's style is told of the tiles: /tiles.json, by TileJSON 3.0.0."""
from __future__ import annotations

from typing import Any, Dict, Optional

from aiohttp import hdrs, web

from .tiles import LAYERS


def tilejson(url: str, max_zoom: int) -> Dict[str, Any]:
    """The TileJSON of the tiles below this URL. All tables are in each tile, so there is one for all."""
    layers = [{"id": name, "fields": layer.fields, "minzoom": 0, "maxzoom": max_zoom} for name, layer in LAYERS.items()]
    tiles = f"{url.rstrip('/')}/tiles/{{z}}/{{x}}/{{y}}.mvt"
    return {"tilejson": "3.0.0", "tiles": [tiles], "vector_layers": layers, "minzoom": 0, "maxzoom": max_zoom}


class Description:
    """Answers it. Without a public URL it is the one by which the client came here."""

    def __init__(self, public_url: Optional[str], max_zoom: int, cached: Dict[str, str]) -> None:
        self._public_url = public_url
        self._max_zoom = max_zoom
        self._cached = cached

    async def answer(self, request: web.Request) -> web.Response:
        """The description, or 400 where the client names no host."""
        if self._public_url is None and hdrs.HOST not in request.headers:
            raise web.HTTPBadRequest(text="the request has no Host")
        url = self._public_url or f"{request.scheme}://{request.headers[hdrs.HOST]}"
        return web.json_response(tilejson(url, self._max_zoom), headers=self._cached)
