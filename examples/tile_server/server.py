"""The server: what is answered to a request for a tile."""
from __future__ import annotations

import asyncio
import logging
from concurrent.futures import ThreadPoolExecutor
from typing import Collection, Dict, Union

from aiohttp import hdrs, web

from .bodies import Body, answer_of, body_of, takes_gzip
from .database import QueryFailed, TooSlow, Unavailable
from .metrics import GONE, OTHER, REFUSED, TOO_SLOW, Metrics
from .publishing import Published, Publisher, Refused
from .refusals import LATER_SECONDS, SOON_SECONDS, refusal, refusal_for_now, refusal_of_fault
from .sparse_log import SparseLog
from .tiles import Address

_log = logging.getLogger(__name__)


class Server:
    """Answers requests. What blocks is done in threads, of which there are `workers`, so the event loop stays free. `cached` is the
    header that tells caches how long they may keep a tile."""

    def __init__(self, publisher: Publisher, metrics: Metrics, workers: int, max_zoom: int, cached: Dict[str, str]) -> None:
        self._publisher = publisher
        self._metrics = metrics
        self._threads = ThreadPoolExecutor(workers, thread_name_prefix="tile")
        self._outages = SparseLog()
        self._max_zoom = max_zoom
        self._cached = cached

    async def answer(self, request: web.Request) -> web.Response:
        """The answer to a request for a tile, which is counted."""
        address = Address(*(int(request.match_info[it]) for it in ("zoom", "column", "row")))
        is_tile = address.exists(self._max_zoom)
        answer = await self._tile(request, address) if is_tile else refusal(404, "there is no such tile", address)
        self._metrics.requests.labels(str(answer.status), str(address.zoom) if is_tile else OTHER).inc()
        return answer

    async def _tile(self, request: web.Request, address: Address) -> web.Response:
        is_gzip = takes_gzip(request.headers.get(hdrs.ACCEPT_ENCODING, ""))
        # (a weak tag is as good here: RFC 9110, section 13.1.2)
        known_tags = {it.value for it in request.if_none_match or ()}
        loop = asyncio.get_running_loop()
        try:
            made = await loop.run_in_executor(self._threads, self._made, address, is_gzip, known_tags)
        except (Unavailable, TooSlow, QueryFailed) as error:
            return self._refusal_of_query(error, address)
        except MemoryError as error:
            _log.error("tile %s: %s", address, error)
            return refusal_for_now("out of memory", address, SOON_SECONDS)
        return refusal_of_fault(made, address) if isinstance(made, Refused) else answer_of(made, self._cached)

    def _made(self, address: Address, is_gzip: bool, known_tags: Collection[str]) -> Union[Body, Refused]:
        outcome = self._publisher.publish(address)
        return body_of(outcome, is_gzip, known_tags) if isinstance(outcome, Published) else outcome

    def _refusal_of_query(self, error: Union[Unavailable, TooSlow, QueryFailed], address: Address) -> web.Response:
        if isinstance(error, Unavailable):
            self._metrics.query_failures.labels(GONE).inc()
            # (each request fails at once meanwhile, so there may be many)
            self._outages.error(f"tile {address}: the database is not available: {error}")
            return refusal_for_now("the database is not available", address, SOON_SECONDS)
        if isinstance(error, TooSlow):
            self._metrics.query_failures.labels(TOO_SLOW).inc()
            _log.error("tile %s: the query took too long: %s", address, error)
            return refusal_for_now("the query took too long", address, LATER_SECONDS)
        self._metrics.query_failures.labels(REFUSED).inc()
        _log.error("tile %s: the query failed: %s", address, error)
        return refusal(500, "the query failed", address)

    def close(self) -> None:
        """Answers what has come, and writes what is left to be logged."""
        self._threads.shutdown()
        self._outages.close()
