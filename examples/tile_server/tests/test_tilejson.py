"""/tiles.json: what TileJSON 3.0.0 demands, and that it is true of the tiles."""
from __future__ import annotations

from typing import Any, Dict

import pytest

from conftest import FIELD, PLACES, PONDS, judged, tags_of
from running import Database, Server, path_of, tile_server

# the types by the words that a tile has for a value
TYPES = {str: "String", int: "Number", float: "Number", bool: "Boolean"}


def described(server: Server, headers: Dict[str, str] = {}) -> Dict[str, Any]:
    """The description."""
    answer = server.get("/tiles.json", headers)
    assert answer.status == 200 and answer.headers["Content-Type"] == "application/json; charset=utf-8"
    assert answer.headers["Cache-Control"] == "public, max-age=300"
    return answer.json()


def test_what_the_standard_demands(server: Server) -> None:
    described_here = described(server)
    assert described_here["tilejson"] == "3.0.0"
    (url,) = described_here["tiles"]
    assert url == f"{server.address}/tiles/{{z}}/{{x}}/{{y}}.mvt"
    for it in described_here["vector_layers"]:
        assert isinstance(it["id"], str) and all(isinstance(text, str) for field in it["fields"].items() for text in field)
    assert {it["id"] for it in described_here["vector_layers"]} == {"areas", "places"}
    assert (described_here["minzoom"], described_here["maxzoom"]) == (0, 22)
    # (rows are counted from the north, as where the standard's member `scheme` isn't there)
    assert "scheme" not in described_here


def test_address_leads_to_the_tile(server: Server) -> None:
    (url,) = described(server)["tiles"]
    filled = url.replace("{z}", "6").replace("{x}", str(FIELD)).replace("{y}", "20")
    assert filled == server.address + path_of(FIELD)
    assert server.get(filled[len(server.address) :]).body == server.get(path_of(FIELD)).body != b""


def test_layers_and_fields_are_those_of_the_tiles(server: Server) -> None:
    seen: Dict[str, Dict[str, str]] = {}
    for column in (FIELD, PONDS, PLACES):
        for name, layer in judged(server.get(path_of(column))).items():
            for number in range(len(layer["features"])):
                fields = {key: TYPES[type(value)] for key, value in tags_of(layer, number).items()}
                seen.setdefault(name, {}).update(fields)
    assert {it["id"]: it["fields"] for it in described(server)["vector_layers"]} == seen


def test_greatest_zoom(database: Database) -> None:
    with tile_server(database.dsn, "--max-zoom", "14") as running:
        told = described(running)
        assert [it["maxzoom"] for it in (told, *told["vector_layers"])] == [14] * 3
        assert [running.get(path_of(0, zoom, 0)).status for zoom in (14, 15)] == [204, 404]


@pytest.mark.parametrize("host", ["tiles.example", "tiles.example:8443", "[::1]:8080"])
def test_address_of_the_client(server: Server, host: str) -> None:
    assert described(server, {"Host": host})["tiles"] == [f"http://{host}/tiles/{{z}}/{{x}}/{{y}}.mvt"]


@pytest.mark.parametrize("url", ["https://tiles.example", "https://example.org/map/"])
def test_public_address(database: Database, url: str) -> None:
    with tile_server(database.dsn, "--public-url", url) as running:
        wanted = [f"{url.rstrip('/')}/tiles/{{z}}/{{x}}/{{y}}.mvt"]
        assert described(running)["tiles"] == described(running, {"Host": "other.example"})["tiles"] == wanted


def test_client_that_names_no_host(server: Server) -> None:
    with server.connect() as connection:
        connection.sendall(b"GET /tiles.json HTTP/1.0\r\n\r\n")
        with connection.makefile("rb") as answer:
            assert answer.readline().split()[1] == b"400"
