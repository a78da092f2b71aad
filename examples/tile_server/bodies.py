"""Tiles as they are sent: encodings, tags, and what headers say of the gate."""
from __future__ import annotations

import gzip
import hashlib
from dataclasses import dataclass
from typing import Collection, Dict, Optional, Sequence

from aiohttp import hdrs, web
from aiohttp.helpers import ETAG_ANY

from .publishing import Published
from .rows import Row

MEDIA_TYPE = "application/vnd.mapbox-vector-tile"
# how many features of the tile were mended, and the rows of those that couldn't be and were left out
MENDED_HEADER = "X-Tile-Mended"
DROPPED_HEADER = "X-Tile-Dropped"
# (servers and proxies bound the length of headers)
_MOST_NAMED = 20
# why a tile didn't pass that is sent all the same: the fault's text, as JSON
FAULT_HEADER = "X-Tile-Fault"


def _weight(parameter: str) -> float:
    name, _, number = parameter.partition("=")
    try:
        return float(number) if name.strip() == "q" else 1.0
    except ValueError:
        return 0.0


def takes_gzip(accept_encoding: str) -> bool:
    """Whether a client that sent this header takes gzip. What it says of gzip counts more than what it says of all encodings."""
    weights: Dict[str, float] = {}
    for part in accept_encoding.lower().split(","):
        coding, _, parameter = part.partition(";")
        weights[coding.strip()] = _weight(parameter)
    return weights.get("gzip", weights.get("*", 0.0)) > 0


@dataclass(frozen=True)
class Body:
    """A tile as it is sent, with the headers of what the gate said. The client has it already where `content` is None."""

    tag: str
    content: Optional[bytes]
    is_gzip: bool
    judgement: Dict[str, str]


def _dropped(rows: Sequence[Row]) -> Dict[str, str]:
    named = [*map(str, rows[:_MOST_NAMED]), *([f"{len(rows) - _MOST_NAMED} more"] if len(rows) > _MOST_NAMED else [])]
    return {DROPPED_HEADER: ", ".join(named)} if named else {}


def _judgement(published: Published) -> Dict[str, str]:
    if published.changes:
        dropped = [it.row for it in published.changes if it.is_dropped]
        return {MENDED_HEADER: str(len(published.changes) - len(dropped)), **_dropped(dropped)}
    return {FAULT_HEADER: published.reported.text} if published.reported else {}


def body_of(published: Published, is_gzip: bool, known_tags: Collection[str]) -> Body:
    """The body of the very bytes that were judged. Its tag is made of these bytes and of the encoding."""
    tile, judgement = published.tile, _judgement(published)
    tag = hashlib.sha256(tile).hexdigest()[:32] + ("-gzip" if is_gzip else "")
    # (an answer without a tile has no tag that a client could know)
    if tile and (tag in known_tags or ETAG_ANY in known_tags):
        return Body(tag, None, is_gzip, judgement)
    # (without the time, which gzip has in its header otherwise, so that the same tile is the same body)
    content = gzip.compress(tile, 6, mtime=0) if tile and is_gzip else tile
    return Body(tag, content, is_gzip, judgement)


def answer_of(body: Body, cached: Dict[str, str]) -> web.Response:
    """The answer with a tile, or one that says that there is nothing to send. `cached` is the header that tells caches how long."""
    if body.content == b"":
        return web.Response(status=204, headers=cached)
    headers: Dict[str, str] = {**cached, **body.judgement, hdrs.ETAG: f'"{body.tag}"', hdrs.VARY: hdrs.ACCEPT_ENCODING}
    if body.content is None:
        return web.Response(status=304, headers=headers)
    if body.is_gzip:
        headers[hdrs.CONTENT_ENCODING] = "gzip"
    return web.Response(body=body.content, content_type=MEDIA_TYPE, headers=headers)
