"""Times the server of examples/tile_server without the gate, with it, and with --mend, for bench/tile_server.

tile_load.py [ROUNDS [REQUESTS]]: in each round, for each tile and number of connections, as many requests to each of the three
servers, which are over one database; every second round begins with the last one. The server with the gate only reports, so that
it sends faulty tiles too. It prints a table of the medians of all rounds, and of the quotients to the server without the gate in the
same round.
"""
import contextlib
import dataclasses
import gzip
import os
import pathlib
import statistics
import sys
import time

TOP = pathlib.Path(__file__).resolve().parents[2]
sys.path.insert(0, str(TOP / "examples/tile_server/tests"))
import mvtgate
import psycopg2
import running
import shapes

# (the columns of the tiles in tables.sql, and of one that is added to them)
TILES = {"a field": 0, "points": 24, "polygons": 20, "two ponds with one corner": 2, "faulty polygons": 40}
CONNECTIONS = (1, 8)
SERVERS = {"none": ["--no-gate"], "gate": ["--report-only"], "mend": ["--mend"]}
# the heads of the columns, and what is measured
MEASURED = {"Requests a second": "rate", "p50, ms": "p50", "p99, ms": "p99", "Processor, ms a request": "processor"}
# of each kind of shape, in the tile that is added
COUNT = 20
INSERT = """
INSERT INTO areas (id, name, geometry)
SELECT %s, %s, ST_Multi(ST_SetSRID(ST_Affine({shape}, unit, 0, 0, -unit, ST_XMin(tile) + %s * unit, ST_YMax(tile) - %s * unit), 3857))
FROM (SELECT tile, (ST_XMax(tile) - ST_XMin(tile)) / 4096 AS unit FROM ST_TileEnvelope(6, 40, 20) AS tile) AS its
"""


@dataclasses.dataclass(frozen=True)
class Load(running.Load):
    """With the milliseconds of processor time that a request took in the server's process."""

    processor: float


def seconds_of(process):
    """The processor time of a process so far."""
    fields = pathlib.Path(f"/proc/{process.pid}/stat").read_text().rpartition(")")[2].split()
    # (the fields 14 and 15 of the whole line)
    return (int(fields[11]) + int(fields[12])) / os.sysconf("SC_CLK_TCK")


def fill(database):
    """Adds a tile of shapes of all kinds, most of them faulty."""
    with contextlib.closing(psycopg2.connect(database.dsn)) as connection, connection, connection.cursor() as cursor:
        made = [(kind, shape) for kind in shapes.KINDS for shape in shapes.shapes_of(kind, COUNT)]
        for number, (kind, shape) in enumerate(made):
            cursor.execute(INSERT.format(shape=shape), [20000 + number, kind, 300 * (number % 11), 300 * (number // 11)])


def load_of(server, column, requests, connections):
    """One load."""
    before = seconds_of(server.process)
    load = running.load(server.address, running.path_of(column), requests, connections)
    assert load.other_than_200 == load.socket_errors == 0
    return Load(**dataclasses.asdict(load), processor=1e3 * (seconds_of(server.process) - before) / load.requests)


def loads_of_round(servers, column, requests, connections, is_reversed):
    """The loads of a round, by the name of the server."""
    names = reversed(servers) if is_reversed else servers
    return {name: load_of(servers[name], column, requests, connections) for name in names}


def milliseconds_of(call, tile):
    """The median time of a call by itself."""
    times = []
    for _ in range(200):
        before = time.perf_counter()
        call(tile)
        times.append(1e3 * (time.perf_counter() - before))
    return statistics.median(times)


def quick_check(tile):
    return mvtgate.check(tile, quick=True)


def describe(name, server, column):
    """Prints a row on a tile, as the database makes it."""
    body = server.get(running.path_of(column), {"Accept-Encoding": "gzip"}).body
    tile = gzip.decompress(body)
    features, faulty = sum(len(it["features"]) for it in mvtgate.dump(tile)["layers"]), len(mvtgate.faults(tile))
    times = f"{milliseconds_of(quick_check, tile):.3f} | {milliseconds_of(mvtgate.mend, tile):.3f}"
    print(f"| {name} | {features:,} | {faulty:,} | {len(tile):,} | {len(body):,} | {times} |", flush=True)


def print_row(name, connections, rounds):
    """Prints the medians of the rounds on a tile, and those of the quotients."""
    cells = []
    for key in MEASURED.values():
        measured = {server: [getattr(it[server], key) for it in rounds] for server in SERVERS}
        cell = [f"{statistics.median(measured['none']):,.2f}"]
        for server in ("gate", "mend"):
            quotient = statistics.median(one / none for one, none in zip(measured[server], measured["none"]))
            cell.append(f"{statistics.median(measured[server]):,.2f} ({quotient:.2f})")
        cells.append(", ".join(cell))
    print(f"| {name} | {connections} | {' | '.join(cells)} |", flush=True)


def print_table(servers, count, requests):
    """Measures and prints all rows."""
    print(f"\n| Tile | Connections | {' | '.join(MEASURED)} |\n|---|---|{'---|' * len(MEASURED)}", flush=True)
    for name, column in TILES.items():
        for connections in CONNECTIONS:
            # (one that isn't counted, so that all is in memory)
            loads_of_round(servers, column, 20, connections, False)
            rounds = [loads_of_round(servers, column, requests, connections, bool(it % 2)) for it in range(count)]
            print_row(name, connections, rounds)


def main():
    words = [int(it) for it in sys.argv[1:]]
    count, requests = (words + [5, 1000][len(words) :])[:2]
    before = os.getloadavg()[0]
    with contextlib.ExitStack() as stack:
        database = stack.enter_context(running.map_database())
        fill(database)
        servers = {name: stack.enter_context(running.tile_server(database.dsn, *words)) for name, words in SERVERS.items()}
        head = "Tile | Features | Faulty | Bytes | Bytes of gzip | `check`, ms | `mend`, ms"
        print(f"\n| {head} |\n|---|---|---|---|---|---|---|")
        for name, column in TILES.items():
            describe(name, servers["none"], column)
        print_table(servers, count, requests)
    print(f"\nThe load of the machine was {before:.1f} before, and {os.getloadavg()[0]:.1f} at the end; {count} rounds of {requests} requests.")


if __name__ == "__main__":
    main()
