"""Times servers with the proxy in front of them and without it, for bench/proxy: proxy_load.py [ROUNDS].

In each round each way to a tile is asked in turn, with 1, 8 and 64 connections; every second round goes the other way round. It prints
the medians of all rounds, and of the quotients by the server alone in the same round; and the processor time of the proxy for a
request, which depends little on what else the machine does.
"""
import contextlib
import dataclasses
import gzip
import importlib.util
import os
import pathlib
import random
import statistics
import subprocess
import sys

TOP = pathlib.Path(__file__).resolve().parents[2]
sys.path.insert(0, str(TOP / "proxy/tests"))
import mvtgate
import running

found = importlib.util.spec_from_file_location("running_of_tile_server", TOP / "examples/tile_server/tests/running.py")
theirs = importlib.util.module_from_spec(found)
sys.modules[found.name] = theirs
found.loader.exec_module(theirs)

# (which bench/proxy builds)
PLAIN = TOP / "bench/out/reverse_proxy"
CONNECTIONS = (1, 8, 64)
# answers of each load
REQUESTS = {1: 3000, 8: 12000, 64: 12000}
OF_MAP_SERVER = 600
COUNT = 200


def varint(number):
    parts = bytearray()
    while number > 127:
        parts.append(number & 127 | 128)
        number >>= 7
    return bytes([*parts, number])


def zigzag(number):
    return varint(2 * number if number >= 0 else -2 * number - 1)


def block(key, payload):
    return bytes([key]) + varint(len(payload)) + payload


def octagon(chance, x, y):
    """The corners of an octagon, which are uneven."""
    sides = ((1, -3), (3, -1), (3, 1), (1, 3), (-1, 3), (-3, 1), (-3, -1), (-1, -3))
    return [(x + dx * chance.randint(8, 12), y + dy * chance.randint(8, 12)) for dx, dy in sides]


def feature(chance, number):
    """A polygon with tags, in a cell of its own."""
    corners = octagon(chance, 100 + number % 20 * 200, 100 + number // 20 * 200)
    steps = [(one[0] - other[0], one[1] - other[1]) for one, other in zip(corners[1:], corners)]
    geometry = varint(9) + b"".join(map(zigzag, corners[0])) + varint(len(steps) << 3 | 2)
    geometry += b"".join(zigzag(it) for step in steps for it in step) + varint(15)
    tags = b"".join(varint(it) for it in (0, chance.randrange(40), 1, 40 + chance.randrange(40)))
    return block(0x12, block(0x12, tags) + b"\x18\x03" + block(0x22, geometry))


def tile():
    """A valid tile of buildings, in two layers, of some 20 KB."""
    chance = random.Random(7)
    layers = []
    for name in (b"buildings", b"gardens"):
        features = b"".join(feature(chance, it) for it in range(COUNT))
        keys = b"".join(block(0x1A, it) for it in (b"name", b"height"))
        values = b"".join(block(0x22, block(0x0A, b"a name %d" % it)) for it in range(80))
        layers.append(block(0x1A, b"\x78\x02" + block(0x0A, name) + features + keys + values))
    made = b"".join(layers)
    assert mvtgate.check(made) is None
    return made


@contextlib.contextmanager
def files(made):
    """nginx with the tile, plain and packed, and nginx in front of it."""

    def of_files(folder, port):
        (folder / "www/1/2").mkdir(parents=True, exist_ok=True)
        (folder / "www/1/2/3.mvt").write_bytes(made)
        (folder / "www/1/2/3.mvt.gz").write_bytes(gzip.compress(made, mtime=0))
        server = f"listen 127.0.0.1:{port} backlog=4096; keepalive_requests 100000000; gzip_static on; root {folder}/www;"
        return running.nginx_of(f"types {{ application/vnd.mapbox-vector-tile mvt; }} sendfile on; server {{ {server} }}", folder)

    with running.nginx(of_files) as inner:

        def of_front(folder, port):
            passing = "proxy_pass http://inner; proxy_http_version 1.1; proxy_set_header Connection '';"
            server = f"listen 127.0.0.1:{port} backlog=4096; keepalive_requests 100000000; location / {{ {passing} }}"
            upstream = f"upstream inner {{ server {inner.partition('//')[2]}; keepalive 64; keepalive_requests 100000000; }}"
            return running.nginx_of(f"{upstream} server {{ {server} }}", folder)

        with running.nginx(of_front) as front:
            yield inner, front


@contextlib.contextmanager
def reverse_proxy(upstream):
    """The reverse proxy of Go's standard library, which judges nothing."""
    process = subprocess.Popen(running.until_death(str(PLAIN), upstream), stdout=subprocess.PIPE, text=True)
    try:
        yield Way(process.stdout.readline().strip(), process)
    finally:
        running.ended(process)


@dataclasses.dataclass(frozen=True)
class Way:
    """Where a tile is asked for, and the process of the proxy, if there is one."""

    url: str
    process: object = None

    def used(self):
        """The seconds of processor time of the proxy so far."""
        if not self.process:
            return 0
        fields = pathlib.Path(f"/proc/{self.process.pid}/stat").read_text().rpartition(")")[2].split()
        # (the fields 14 and 15 of the whole line)
        return (int(fields[11]) + int(fields[12])) / os.sysconf("SC_CLK_TCK")


def way_by(proxy):
    return Way(f"http://{proxy.address[0]}:{proxy.address[1]}", proxy.process)


@dataclasses.dataclass(frozen=True)
class Load:
    """What was measured: times in milliseconds, and microseconds of the proxy's processor time for a request."""

    p50: float
    p99: float
    rate: float
    processor: float


def load_of(way, path, requests, connections):
    before = way.used()
    load = theirs.load(way.url, path, requests, connections)
    assert load.other_than_200 == load.socket_errors == 0, load
    return Load(load.p50, load.p99, load.rate, 1e6 * (way.used() - before) / load.requests)


def table(title, ways, path, rounds, requests):
    """Prints the medians of the rounds: `ways` are those of each name, of which the first is what the others are held against."""
    print(f"\n{title}:\n\n| Connections | Way | p50, ms | p99, ms | Requests a second | Processor, µs a request |\n|---|---|---|---|---|---|", flush=True)
    for connections in CONNECTIONS:
        loads = {name: [] for name in ways}
        for number in range(rounds):
            for name in sorted(ways, key=list(ways).index, reverse=number % 2 == 1):
                loads[name].append(load_of(ways[name], path, requests(connections), connections))
        first = loads[next(iter(ways))]
        for name, of_way in loads.items():
            cells = []
            for key, digits in (("p50", 3), ("p99", 3), ("rate", 0)):
                ratio = statistics.median(getattr(one, key) / getattr(other, key) for one, other in zip(of_way, first))
                cells.append(f"{statistics.median(getattr(it, key) for it in of_way):,.{digits}f} ({ratio:.2f})")
            cells.append(f"{statistics.median(it.processor for it in of_way):,.0f}" if ways[name].process else "-")
            print(f"| {connections} | {name} | {' | '.join(cells)} |", flush=True)


def main():
    rounds = int(sys.argv[1]) if len(sys.argv) > 1 else 5
    made = tile()
    print(f"the tile: {len(made):,} bytes, {len(gzip.compress(made)):,} packed")
    with contextlib.ExitStack() as stack:
        inner, front = stack.enter_context(files(made))
        plain = stack.enter_context(reverse_proxy(inner))
        proxy = stack.enter_context(running.proxy(inner, "--mode", "refuse"))
        anew = stack.enter_context(running.proxy(inner, "--mode", "refuse", "--remember", "0"))
        before = proxy.resident()
        ways = {
            "nginx": Way(inner),
            "behind nginx": Way(front),
            "behind Go's reverse proxy": plain,
            "behind the proxy": way_by(proxy),
            "the same, --remember 0": way_by(anew),
        }
        table("Files of nginx, packed", ways, "/1/2/3.mvt", rounds, REQUESTS.__getitem__)
        print(f"\nmemory of the proxy: {before >> 20} MiB at first, {proxy.resident() >> 20} MiB after it, {anew.resident() >> 20} MiB with --remember 0")
    with theirs.map_database() as database, theirs.tile_server(database.dsn, "--no-gate") as server, running.proxy(server.address, "--mode", "refuse") as proxy:
        ways = {"the map server": Way(server.address), "behind the proxy": way_by(proxy)}
        table("The map server over PostGIS", ways, theirs.path_of(20), rounds, lambda _: OF_MAP_SERVER)


main()
