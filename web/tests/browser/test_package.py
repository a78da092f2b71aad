"""The package for JavaScript as a page imports it, without a bundler: in the page itself and in its pool's workers."""
from __future__ import annotations

import base64
import functools
import http.server
import json
import threading
from typing import Any, Iterator, List

import pytest

from browsers import Browser
from conftest import TOP
from samples import NAMES, YES, accepted, path_of

PACKAGE = TOP / "bindings/js"
# what is asked of each tile: its fault by the page and by the pool, all faults, whether they are confirmed, and what it is mended to
PAGE = """<!doctype html>
<title>package</title>
<script type="module">
import { OutOfMemory, load, loadPool } from '/src/web.js';
const gate = await load(), pool = await loadPool({ size: 2 });
const bytesOf = (base64) => Uint8Array.from(atob(base64), (letter) => letter.charCodeAt(0));
async function judged(tile, profile) {
  const fault = gate.check(tile, { profile }), faults = gate.faults(tile, { profile });
  const { outcome, tile: mended } = gate.mend(tile, { profile, drop: true });
  return {
    fault, pool: await pool.check(tile, { profile }), first: faults[0] ?? null, confirmed: faults.every((it) => gate.confirm(tile, it, { profile })),
    outcome, valid: mended && gate.check(mended, { profile }) === null, same: JSON.stringify(await pool.dump(tile)) === JSON.stringify(gate.dump(tile)),
  };
}
window.ask = async (tiles, profile) => JSON.stringify(await Promise.all(tiles.map((it) => judged(bytesOf(it), profile))));
window.stop = async () => {
  const large = new Uint8Array(64 << 20).fill(0x1a), reason = new Error('enough'), signal = AbortSignal.abort(reason);
  const ended = await pool.check(large, { signal }).catch((error) => error === reason);
  const wrong = await pool.check('no').catch((error) => error instanceof TypeError);
  const moved = new Uint8Array(8);
  await pool.check(moved, { transfer: true });
  pool.close();
  return [ended, wrong, moved.length, await pool.check(moved).catch((error) => error.name), gate.version, new OutOfMemory().name];
};
</script>
"""


@pytest.fixture(scope="module")
def address() -> Iterator[str]:
    class Files(http.server.SimpleHTTPRequestHandler):
        def do_GET(self) -> None:
            if self.path != "/":
                return super().do_GET()
            self.send_response(200)
            self.send_header("Content-Type", "text/html; charset=utf-8")
            self.end_headers()
            self.wfile.write(PAGE.encode())
            return None

        def log_message(self, *_: Any) -> None:
            pass

    with http.server.ThreadingHTTPServer(("127.0.0.1", 0), functools.partial(Files, directory=str(PACKAGE))) as server:
        threading.Thread(target=server.serve_forever, daemon=True).start()
        yield f"http://127.0.0.1:{server.server_port}/"
        server.shutdown()


def opened(browser: Browser, address: str) -> None:
    browser.open(address)
    browser.script("return new Promise((ready) => { const wait = () => (window.ask ? ready(true) : setTimeout(wait, 20)); wait(); })")


@pytest.mark.parametrize("profile", ["polygon", "feature"])
def test_all_samples(browser: Browser, address: str, profile: str) -> None:
    opened(browser, address)
    tiles = [base64.b64encode(path_of(name).read_bytes()).decode() for name in NAMES]
    found: List[Any] = json.loads(browser.script("return window.ask(arguments[0], arguments[1])", tiles, profile))
    assert len(found) == len(NAMES) > 100
    for name, it in zip(NAMES, found):
        line = YES if it["fault"] is None else json.dumps(it["fault"], separators=(",", ":"))
        assert line in accepted(name, profile), name
        assert it["pool"] == it["fault"] == it["first"] and it["confirmed"] and it["same"], name
        assert (it["outcome"] == "valid") == (line == YES) and it["valid"] is (None if it["outcome"] == "refused" else True), name
    assert {it["outcome"] for it in found} == {"valid", "mended", "refused"}


def test_pool(browser: Browser, address: str) -> None:
    opened(browser, address)
    version = (TOP / "VERSION").read_text().strip()
    assert browser.script("return window.stop()") == [True, True, 0, "Stopped", version, "OutOfMemory"]
