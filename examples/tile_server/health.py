"""Whether the server can make tiles: /healthz, for whoever hands it requests."""
from __future__ import annotations

import asyncio
from concurrent.futures import ThreadPoolExecutor
from typing import Optional

from aiohttp import hdrs, web

from .database import Database, QueryFailed, TooSlow, Unavailable

_SECONDS = 2.0


class Health:
    """Asks the database. It has a connection and a thread of its own, so that it doesn't wait for tiles."""

    def __init__(self, database: Database) -> None:
        self._database = database
        self._thread = ThreadPoolExecutor(1, thread_name_prefix="health")
        self._question: Optional[asyncio.Future[Optional[str]]] = None

    async def answer(self, _: web.Request) -> web.Response:
        """200 where the database answers, and 503 where it doesn't, or not soon."""
        try:
            # (whoever asks meanwhile waits for the same question, which nobody's end of patience ends)
            error = await asyncio.wait_for(asyncio.shield(self._asked()), _SECONDS)
        except asyncio.TimeoutError:
            error = f"the database did not answer within {_SECONDS:g} seconds"
        told = {"status": "ok"} if error is None else {"error": error}
        return web.json_response(told, status=503 if error else 200, headers={hdrs.CACHE_CONTROL: "no-store"})

    def _asked(self) -> asyncio.Future[Optional[str]]:
        if self._question is None or self._question.done():
            self._question = asyncio.get_running_loop().run_in_executor(self._thread, self._error)
        return self._question

    def _error(self) -> Optional[str]:
        """What is wrong, in words that anybody may read."""
        try:
            self._ask()
        except (Unavailable, TooSlow, QueryFailed):
            return "the database is not available"
        return None

    def _ask(self) -> None:
        try:
            self._database.row("SELECT 1", {})
        except Unavailable:
            # (the connection may have been of a database that was started again since)
            self._database.row("SELECT 1", {})

    def close(self) -> None:
        """Ends the connection."""
        self._thread.shutdown()
        self._database.close()
