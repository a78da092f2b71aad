"""The addresses of the server."""
from __future__ import annotations

from dataclasses import dataclass

from aiohttp import web

from .database import Database
from .health import Health
from .metrics import Metrics
from .server import Server
from .sharing import Sharing
from .tilejson import Description

# (a number has one spelling, so that a cache has each tile once)
_NUMBER = "0|[1-9][0-9]{0,9}"
_TILE = f"/tiles/{{zoom:{_NUMBER}}}/{{column:{_NUMBER}}}/{{row:{_NUMBER}}}.mvt"
_DESCRIPTION = "/tiles.json"


@dataclass(frozen=True)
class Parts:
    """Who answers what."""

    server: Server
    description: Description
    sharing: Sharing
    health: Health
    metrics: Metrics


def application(parts: Parts, database: Database) -> web.Application:
    """The application. HEAD is answered as GET is. At the end it closes the database too."""

    async def close(_: web.Application) -> None:
        parts.server.close()
        parts.health.close()
        database.close()

    made = web.Application()
    made.router.add_get(_TILE, parts.server.answer)
    made.router.add_get(_DESCRIPTION, parts.description.answer)
    made.router.add_get("/healthz", parts.health.answer)
    made.router.add_get("/metrics", parts.metrics.answer)
    for path in (_TILE, _DESCRIPTION):
        made.router.add_options(path, parts.sharing.preflight)
    made.on_response_prepare.append(parts.sharing.mark)
    made.on_cleanup.append(close)
    return made
