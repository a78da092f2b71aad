"""What scripts of other sites may read: by the headers, and in a browser."""
from __future__ import annotations

import contextlib
import html
import http.server
import json
import re
import shutil
import subprocess
import tempfile
import threading
from typing import Any, Iterator, List

import pytest

from conftest import CLOSE_PONDS, FIELD, GARDEN, GZIP
from running import SECONDS, Database, Server, path_of, tile_server, until_death

ORIGIN = "Access-Control-Allow-Origin"


@pytest.mark.parametrize(
    "path, status",
    [
        (path_of(FIELD), 200),
        (path_of(GARDEN), 204),
        (path_of(CLOSE_PONDS), 500),
        (path_of(0, 23), 404),
        ("/tiles/6/a/20.mvt", 404),
        ("/tiles.json", 200),
    ],
)
def test_all_answers_about_tiles_are_shared(server: Server, path: str, status: int) -> None:
    for headers in (GZIP, {**GZIP, "Origin": "https://map.example"}):
        answer = server.get(path, headers)
        assert (answer.status, answer.headers[ORIGIN]) == (status, "*")
        exposed = answer.headers["Access-Control-Expose-Headers"].lower().split(", ")
        assert {"etag", "retry-after", "x-tile-dropped", "x-tile-fault", "x-tile-mended"} == set(exposed)


def test_what_a_client_has_is_shared(server: Server) -> None:
    answer = server.get(path_of(FIELD), {"If-None-Match": "*"})
    assert (answer.status, answer.headers[ORIGIN]) == (304, "*")


@pytest.mark.parametrize("path", ["/metrics", "/healthz"])
def test_operations_are_not_shared(server: Server, path: str) -> None:
    answer = server.get(path, {"Origin": "https://map.example"})
    assert answer.status == 200 and ORIGIN not in answer.headers
    assert server.get(path, method="OPTIONS").status == 405


@pytest.mark.parametrize("path", [path_of(FIELD), path_of(CLOSE_PONDS), "/tiles.json"])
def test_preflight(server: Server, path: str) -> None:
    asked = {"Method": "GET", "Headers": "if-none-match"}
    headers = {"Origin": "https://map.example", **{f"Access-Control-Request-{key}": it for key, it in asked.items()}}
    answer = server.get(path, headers, method="OPTIONS")
    assert (answer.status, answer.body, answer.headers[ORIGIN]) == (204, b"", "*")
    assert answer.headers["Access-Control-Allow-Methods"].split(", ") == ["GET", "HEAD"]
    assert answer.headers["Access-Control-Allow-Headers"] == "*" and int(answer.headers["Access-Control-Max-Age"]) > 0
    assert answer.headers["Allow"] == "GET,HEAD,OPTIONS"


def test_one_origin(database: Database) -> None:
    with tile_server(database.dsn, "--allow-origin", "https://map.example") as running:
        for headers in (GZIP, {"Origin": "https://other.example"}, {"Origin": "https://map.example"}):
            assert running.get(path_of(FIELD), headers).headers[ORIGIN] == "https://map.example"


PAGE = """<!DOCTYPE html><title>asks</title><p id="seen">nothing</p><script>
async function ask(url) {
    try {
        // (a header of its own has the browser ask first, by OPTIONS)
        const answer = await fetch(url, {headers: {"X-Asked-By": "a page"}});
        const length = (await answer.arrayBuffer()).byteLength;
        return [answer.status, length, answer.headers.get("X-Tile-Fault")];
    } catch {
        return "refused by the browser";
    }
}
async function main() {
    const seen = [];
    for (const url of URLS) seen.push(await ask(url));
    document.getElementById("seen").textContent = JSON.stringify(seen);
}
main();
</script>"""


class Page(http.server.BaseHTTPRequestHandler):
    """Another site, of one page, which asks for the URLs of its server."""

    def do_GET(self) -> None:
        """Sends the page."""
        self.send_response(200)
        self.send_header("Content-Type", "text/html; charset=utf-8")
        self.end_headers()
        self.wfile.write(PAGE.replace("URLS", json.dumps(getattr(self.server, "urls"))).encode())

    def log_message(self, *_: Any) -> None:
        """Nothing is logged."""


@contextlib.contextmanager
def other_site(urls: List[str]) -> Iterator[str]:
    """The address of that site. `localhost` isn't the server's 127.0.0.1, and the port is another one."""
    with http.server.ThreadingHTTPServer(("127.0.0.1", 0), Page) as site:
        setattr(site, "urls", urls)
        threading.Thread(target=site.serve_forever).start()
        try:
            yield f"http://localhost:{site.server_address[1]}"
        finally:
            site.shutdown()


def seen_by_browser(address: str) -> object:
    """What the page's script has seen."""
    with tempfile.TemporaryDirectory(prefix="tile_server.") as folder:
        words = ["chromium", "--headless", "--no-sandbox", "--disable-gpu", f"--user-data-dir={folder}"]
        # (the time is the page's own, which stands still while it waits for an answer)
        words += ["--virtual-time-budget=60000", "--dump-dom", address]
        run = subprocess.run(until_death(*words), capture_output=True, text=True, timeout=SECONDS)
    found = re.search('<p id="seen">(.*?)</p>', run.stdout)
    assert found, run.stderr
    return json.loads(html.unescape(found[1]))


@pytest.mark.skipif(not shutil.which("chromium"), reason="chromium is missing")
def test_page_of_another_site(database: Database) -> None:
    with tile_server(database.dsn, "--report-only") as running:
        paths = [path_of(FIELD), path_of(CLOSE_PONDS), path_of(0, 23), "/tiles.json", "/metrics"]
        answers = [running.get(it) for it in paths]
        with other_site([running.address + it for it in paths]) as address:
            seen = seen_by_browser(address)
    *shared, metrics = [[it.status, len(it.body), it.headers.get("X-Tile-Fault")] for it in answers]
    assert metrics[0] == 200 and shared[1][2] is not None
    assert seen == [*shared, "refused by the browser"]


@pytest.mark.skipif(not shutil.which("chromium"), reason="chromium is missing")
def test_page_of_a_site_that_is_not_named(database: Database) -> None:
    with tile_server(database.dsn, "--allow-origin", "https://map.example") as running:
        with other_site([running.address + path_of(FIELD)]) as address:
            assert seen_by_browser(address) == ["refused by the browser"]
