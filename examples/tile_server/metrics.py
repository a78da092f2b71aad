"""What the server counts and times, for Prometheus."""
from __future__ import annotations

import contextlib
import time
from typing import Iterable, Iterator, Sequence, Tuple

from aiohttp import hdrs, web
from mvtgate import Fault
from prometheus_client import CollectorRegistry, Counter, Histogram, ProcessCollector
from prometheus_client.exposition import choose_encoder

from .database import Unavailable
from .gate import Reason
from .rows import RowChange
from .tiles import Address, Tile

# (all names begin with it)
_PREFIX = "tile_server"
OTHER = "other"
# why a query failed
GONE, TOO_SLOW, REFUSED = "gone", "too_slow", "refused"
_CHECK_BUCKETS = (0.0001, 0.0003, 0.001, 0.003, 0.01, 0.03, 0.1, 0.3, 1.0, 3.0, 10.0)
_QUERY_BUCKETS = (0.001, 0.003, 0.01, 0.03, 0.1, 0.3, 1.0, 3.0, 10.0, 30.0)
# (a cut corner takes half a unit)
_AREA_BUCKETS = (0.0, 0.5, 1.0, 3.0, 10.0, 30.0, 100.0, 1000.0, 10000.0)


class Metrics:
    """All counters and histograms. Each label has few values, whatever is asked for and whatever the tables hold: the answers'
    statuses, the zooms that there are, the codes of faults, the layers' names, and `other`."""

    def __init__(self) -> None:
        self._registry = CollectorRegistry()
        ProcessCollector(registry=self._registry)
        of_fault = ("code", "layer", "zoom")
        self.requests = self._counter("requests", "Requests for tiles that were answered", "status", "zoom")
        self.refused = self._counter("refused", "Tiles that were not sent, since they did not pass the gate", *of_fault)
        self.reported = self._counter("reported", "Tiles that were sent though they did not pass the gate", *of_fault)
        self._mended = self._counter("mended", "Tiles that were sent after they were mended", "zoom")
        self._changed = self._counter("changed_features", "Features of these tiles that were mended or dropped", "layer", "what", "zoom")
        meaning = "By how many square units of the tile's grid the area of a mended feature changed"
        self._area_change = self._histogram("area_change", meaning, _AREA_BUCKETS, "layer")
        self.query_failures = self._counter("query_failures", "Queries for tiles that failed", "reason")
        for reason in (GONE, TOO_SLOW, REFUSED):
            # (so that each is there from the beginning, as 0)
            self.query_failures.labels(reason)
        self.check_seconds = self._histogram("check_seconds", "Time that the gate took for a tile", _CHECK_BUCKETS)
        self._query_seconds = self._histogram("query_seconds", "Time that the database took for a tile", _QUERY_BUCKETS)

    def _counter(self, name: str, meaning: str, *labels: str) -> Counter:
        return Counter(f"{_PREFIX}_{name}", meaning, labels, registry=self._registry)

    def _histogram(self, name: str, meaning: str, buckets: Sequence[float], *labels: str) -> Histogram:
        return Histogram(f"{_PREFIX}_{name}", meaning, labels, buckets=buckets, registry=self._registry)

    @contextlib.contextmanager
    def timed_query(self) -> Iterator[None]:
        """Times a query. While the database is gone there is none to be timed."""
        begun = time.perf_counter()
        is_gone = False
        try:
            yield
        except Unavailable:
            is_gone = True
            raise
        finally:
            if not is_gone:
                self._query_seconds.observe(time.perf_counter() - begun)

    def count_mended(self, address: Address, changes: Iterable[RowChange]) -> None:
        """Counts a tile that was mended. The rows, of which there are too many for labels, are told as exemplars: of each count the
        last one."""
        zoom = str(address.zoom)
        self._mended.labels(zoom).inc()
        for it in changes:
            layer, exemplar = it.row.layer or OTHER, {"tile": str(address), "id": str(it.row.id)}
            self._changed.labels(layer, it.change.what, zoom).inc(exemplar=exemplar)
            if not it.is_dropped:
                before, after = it.areas
                areas = {"before": str(before), "after": str(after)}
                self._area_change.labels(layer).observe(abs(after - before), exemplar={**exemplar, **areas})

    async def answer(self, request: web.Request) -> web.Response:
        """All of them, in the form that Prometheus asks for."""
        encode, content_type = choose_encoder(request.headers.get(hdrs.ACCEPT, ""))
        return web.Response(body=encode(self._registry), headers={hdrs.CONTENT_TYPE: content_type, hdrs.CACHE_CONTROL: "no-store"})


def labels_of(address: Address, tile: Tile, reason: Reason) -> Tuple[str, str, str]:
    """The labels of a tile that didn't pass. Its layer is `other` where the fault is of no one layer."""
    layer = tile.layer(reason.layer) if isinstance(reason, Fault) else None
    return str(reason.code), layer or OTHER, str(address.zoom)
