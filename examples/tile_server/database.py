"""The database: the connections to it, a bound on the time of each query, and what is told apart where one fails."""
from __future__ import annotations

import contextlib
import functools
import select
import time
from typing import Any, Iterator, Mapping, Sequence

import psycopg2  # type: ignore[import]
import psycopg2.extensions  # type: ignore[import]
import psycopg2.pool  # type: ignore[import]

# The database itself ends a query that takes too long. Where nothing comes from it for so much longer, it counts as gone.
_GRACE_SECONDS = 2.0


class Unavailable(Exception):
    """The database is gone: ask again soon."""


class TooSlow(Exception):
    """The query took too long, and the database ended it. It may take as long the next time."""


class QueryFailed(Exception):
    """The database refused the query."""


class _Connection(psycopg2.extensions.connection):  # type: ignore[misc]
    """A connection on which each query is a transaction by itself."""

    def __init__(self, *words: Any, **named: Any) -> None:
        super().__init__(*words, **named)
        self.autocommit = True


def _wait(connection: Any, seconds: float) -> None:
    """Waits until the database has answered, as psycopg2.extras.wait_select does, but no longer than this: a machine that hangs,
    or a network that was cut, may never say so. psycopg2 then closes the connection."""
    end = time.monotonic() + seconds
    while True:
        state = connection.poll()
        if state == psycopg2.extensions.POLL_OK:
            return
        waiting = select.poll()
        waiting.register(connection, select.POLLIN if state == psycopg2.extensions.POLL_READ else select.POLLOUT)
        if not waiting.poll(1000 * max(0.0, end - time.monotonic())):
            raise psycopg2.OperationalError(f"no answer within {seconds:g} seconds")


def bound_all_waiting(query_seconds: float) -> None:
    """Bounds how long any connection of this process waits for the database, which is to end a query after `query_seconds`."""
    psycopg2.extensions.set_wait_callback(functools.partial(_wait, seconds=query_seconds + _GRACE_SECONDS))


def _in_one_line(error: BaseException) -> str:
    return " ".join(str(error).split())


class Database:
    """Asks by as many connections as there may be threads that ask. The database ends a query after `query_seconds`."""

    def __init__(self, dsn: str, connections: int, query_seconds: float) -> None:
        options = f"-c default_transaction_read_only=on -c statement_timeout={round(1000 * query_seconds)}"
        # (the pool keeps no more connections than its least number, so that is the greatest too)
        self._pool: Any = psycopg2.pool.ThreadedConnectionPool(
            connections, connections, dsn, options=options, connection_factory=_Connection
        )

    @contextlib.contextmanager
    def _connection(self) -> Iterator[Any]:
        """A connection of the pool, which drops one that broke, and opens a new one in its place."""
        connection = self._pool.getconn()
        try:
            yield connection
        finally:
            self._pool.putconn(connection)

    def row(self, query: str, parameters: Mapping[str, Any]) -> Sequence[Any]:
        """The one row that a query answers."""
        try:
            with self._connection() as connection, connection.cursor() as cursor:
                cursor.execute(query, parameters)
                row: Sequence[Any] = cursor.fetchone()
                return row
        except psycopg2.extensions.QueryCanceledError as error:
            raise TooSlow(_in_one_line(error)) from error
        except (psycopg2.OperationalError, psycopg2.InterfaceError) as error:
            raise Unavailable(_in_one_line(error)) from error
        except psycopg2.Error as error:
            raise QueryFailed(_in_one_line(error)) from error

    def close(self) -> None:
        """Closes all connections."""
        self._pool.closeall()
