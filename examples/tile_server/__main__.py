"""python3 -m tile_server --dsn DSN: a map server that has its tiles judged before it sends them."""
from __future__ import annotations

import argparse
import logging
import pathlib
import socket
import sys
from typing import Callable, Dict, List, Optional

import mvtgate
import psycopg2  # type: ignore[import]
from aiohttp import hdrs, web

from .application import Parts, application
from .database import Database, bound_all_waiting
from .gate import Gate, Mending
from .health import Health
from .metrics import Metrics
from .publishing import Publisher
from .server import Server
from .sharing import Sharing
from .tilejson import Description
from .tiles import Tiles

_PROFILES = {"polygon": mvtgate.Profile.POLYGON, "feature": mvtgate.Profile.FEATURE}


def seconds(word: str) -> float:
    """A time that a query may take. (To PostgreSQL no milliseconds are no bound.)"""
    number = float(word)
    if not 0.001 <= number <= 86400:
        raise argparse.ArgumentTypeError(f"{word} is not from 0.001 to 86400")
    return number


def within(least: int, most: int) -> Callable[[str], int]:
    """What reads a whole number of a range."""

    def number(word: str) -> int:
        it = int(word)
        if not least <= it <= most:
            raise argparse.ArgumentTypeError(f"{it} is not from {least} to {most}")
        return it

    return number


def arguments() -> argparse.ArgumentParser:
    """The words that the command takes."""
    reader = argparse.ArgumentParser(prog="python3 -m tile_server", description="Serves vector tiles that passed the gate.")
    reader.add_argument("--dsn", required=True, help="the database, such as 'host=/run/postgresql dbname=map'")
    reader.add_argument("--host", default="127.0.0.1", help="the address to listen on (%(default)s)")
    reader.add_argument("--port", type=within(0, 65535), default=8080, help="the port (%(default)s); 0 takes a free one")
    reader.add_argument("--public-url", metavar="URL", help="what /tiles.json has before /tiles (the client's own address)")
    reader.add_argument("--allow-origin", metavar="ORIGIN", default="*", help="whose scripts may read the tiles (%(default)s)")
    reader.add_argument("--profile", choices=_PROFILES, default="polygon", help="what polygons are held against (%(default)s)")
    reader.add_argument("--exact", action="store_true", help="name a tile's first fault, however long that takes by the profile feature")
    reader.add_argument("--mend", action="store_true", help="mend polygons that break the rules")
    reader.add_argument("--drop", action="store_true", help="with --mend, leave out features that can't be mended")
    reader.add_argument("--report-only", action="store_true", help="send a tile that stays faulty all the same, and tell of its fault")
    reader.add_argument("--no-gate", action="store_true", help="send tiles unjudged, to measure what the gate costs")
    reader.add_argument("--keep", type=pathlib.Path, metavar="FOLDER", help="leave faulty tiles here")
    reader.add_argument("--workers", type=within(1, 1000), default=4, help="how many tiles are made at one time (%(default)s)")
    reader.add_argument("--max-bytes", type=within(0, 2**31), default=2**20, help="the longest tile that is judged (%(default)s)")
    reader.add_argument("--max-zoom", type=within(0, 30), default=22, help="the greatest zoom (%(default)s)")
    reader.add_argument("--max-age", type=within(0, 2**31), default=300, help="how many seconds a cache may keep a tile (%(default)s)")
    reader.add_argument("--query-seconds", type=seconds, default=10.0, help="how long a query may take (%(default)s)")
    return reader


def contradiction(said: argparse.Namespace) -> Optional[str]:
    """What is wrong with words that are right one by one."""
    if said.drop and not said.mend:
        return "--drop is for features that can't be mended: only with --mend"
    others = {"--mend": said.mend, "--report-only": said.report_only, "--exact": said.exact, "--keep": said.keep}
    if said.no_gate and any(others.values()):
        return f"{next(it for it in others if others[it])} is for a tile that was judged: not with --no-gate"
    return None


def gate_of(said: argparse.Namespace) -> Optional[Gate]:
    """The gate that the words describe."""
    if said.no_gate:
        return None
    mending = Mending.OR_DROP if said.drop else Mending.ALL if said.mend else Mending.NOT
    return Gate(_PROFILES[said.profile], said.max_bytes, said.exact, mending)


def application_of(said: argparse.Namespace) -> web.Application:
    """The application that the words describe. psycopg2.Error where there is no such database, or they name none."""
    bound_all_waiting(said.query_seconds)
    database = Database(said.dsn, said.workers, said.query_seconds)
    health = Health(Database(said.dsn, 1, said.query_seconds))
    metrics = Metrics()
    publisher = Publisher(Tiles(database), gate_of(said), said.report_only, said.keep, metrics)
    cached: Dict[str, str] = {hdrs.CACHE_CONTROL: f"public, max-age={said.max_age}"}
    parts = Parts(
        Server(publisher, metrics, said.workers, said.max_zoom, cached),
        Description(said.public_url, said.max_zoom, cached),
        Sharing(said.allow_origin),
        health,
        metrics,
    )
    return application(parts, database)


def main(words: Optional[List[str]] = None) -> int:
    """Serves until SIGTERM or SIGINT, answers what has come until then, and returns the exit status."""
    reader = arguments()
    said = reader.parse_args(words)
    wrong = contradiction(said)
    if wrong is not None:
        reader.error(wrong)
    logging.basicConfig(level=logging.INFO, format="%(asctime)s %(levelname)s %(message)s")
    try:
        if said.keep:
            said.keep.mkdir(parents=True, exist_ok=True)
        listening = socket.create_server((said.host, said.port), family=socket.AF_INET6 if ":" in said.host else socket.AF_INET)
        served = application_of(said)
    except (OSError, psycopg2.Error) as error:
        print(f"tile_server: {str(error).strip()}", file=sys.stderr)
        return 1
    host, port = listening.getsockname()[:2]
    print(f"listening on http://{f'[{host}]' if ':' in host else host}:{port}", flush=True)
    web.run_app(served, sock=listening, print=lambda *_: None, access_log=None)
    return 0


if __name__ == "__main__":
    sys.exit(main())
