#!/usr/bin/env python3
"""Times mvt_fault() of the extensions for databases, for bench/library: library_sql.py sqlite | postgresql times ROUNDS FILE..: in each
round, tile by tile, one statement with a batch of calls on the tile in a table. A line for each tile of a round: its number in the
list, and the nanoseconds of processor time that a call takes, of this process for SQLite and of the server's for PostgreSQL.
"""
import contextlib
import pathlib
import sqlite3
import sys
import time

TOP = pathlib.Path(__file__).resolve().parents[2]
SECONDS, MOST_CALLS = 2e-3, 100_000


class Sqlite:
    """A table in memory."""

    def __init__(self, tiles):
        self._database = sqlite3.connect(":memory:")
        self._database.enable_load_extension(True)
        self._database.load_extension(str(TOP / "bindings/sqlite/out/mvtgate"))
        self._database.execute("CREATE TABLE tiles (id INTEGER PRIMARY KEY, tile BLOB)")
        self._database.executemany("INSERT INTO tiles VALUES (?, ?)", enumerate(tiles))

    def call(self, number, calls):
        counting = "WITH RECURSIVE numbers (n) AS (SELECT 1 UNION ALL SELECT n + 1 FROM numbers WHERE n < ?)"
        self._database.execute(f"{counting} SELECT count(mvt_fault(tile)) FROM numbers CROSS JOIN tiles WHERE id = ?", (calls, number)).fetchone()

    @staticmethod
    def used():
        return time.process_time()


class PostgreSQL:
    """A table in a server of its own. Values are kept as they are, so that none is unpacked."""

    def __init__(self, installation, tiles):
        self._cursor = installation.connect().cursor()
        self._cursor.execute("CREATE EXTENSION mvtgate")
        self._cursor.execute("CREATE TABLE tiles (id integer PRIMARY KEY, tile bytea)")
        self._cursor.execute("ALTER TABLE tiles ALTER tile SET STORAGE EXTERNAL")
        self._cursor.executemany("INSERT INTO tiles VALUES (%s, %s)", list(enumerate(tiles)))
        self._cursor.execute("SELECT pg_backend_pid()")
        self._used = pathlib.Path(f"/proc/{self._cursor.fetchone()[0]}/schedstat")

    def call(self, number, calls):
        self._cursor.execute("SELECT count(mvt_fault(tile)) FROM generate_series(1, %s) CROSS JOIN tiles WHERE id = %s", (calls, number))

    def used(self):
        # (in nanoseconds)
        return int(self._used.read_text().split()[0]) / 1e9


def seconds_a_call(database, number, calls):
    before = database.used()
    database.call(number, calls)
    return (database.used() - before) / calls


def print_times(database, count, rounds):
    for _ in range(rounds):
        for number in range(count):
            calls = min(MOST_CALLS, max(1, int(SECONDS / max(seconds_a_call(database, number, 3), 1e-8))))
            # (once more, since a statement by itself takes longer than some calls)
            calls = min(MOST_CALLS, max(1, int(SECONDS / max(seconds_a_call(database, number, calls), 1e-8))))
            print(number, round(1e9 * seconds_a_call(database, number, calls), 1))


@contextlib.contextmanager
def server():
    sys.path.insert(0, str(TOP / "bindings/postgresql/tests"))
    from installation import Installation

    it = Installation()
    try:
        it.copy()
        it.make("install", check=True)
        it.initialize(it.data)
        it.start()
        yield it
    finally:
        it.remove()


def main():
    name, _, rounds, *files = sys.argv[1:]
    tiles = [pathlib.Path(it).read_bytes() for it in files]
    with contextlib.ExitStack() as stack:
        database = Sqlite(tiles) if name == "sqlite" else PostgreSQL(stack.enter_context(server()), tiles)
        print_times(database, len(tiles), int(rounds))


if __name__ == "__main__":
    main()
