"""Nothing leaves the page: no request but for the page itself, and the policy refuses what a script would try."""
from __future__ import annotations

import gzip
import pathlib

import pytest

from browsers import Browser, Chromium
from conftest import FILE_ADDRESS, OUT, opened
from samples import path_of

TRIES = {
    "fetch": ("connect-src", "fetch('https://example.org/').catch(() => undefined)"),
    "image": ("img-src", "new Image().src = 'https://example.org/x.png'"),
    "beacon": ("connect-src", "navigator.sendBeacon('https://example.org/', 'x')"),
    "socket": ("connect-src", "new WebSocket('wss://example.org/')"),
    "script": ("script-src-elem", "append('script', { src: 'https://example.org/x.js' })"),
    "inline script": ("script-src-elem", "append('script', { textContent: 'window.ran = true' })"),
    "inline style": ("style-src-elem", "append('style', { textContent: 'body { color: red }' })"),
    "frame": ("frame-src", "append('iframe', { src: 'https://example.org/' })"),
    "form": ("form-action", "append('form', { action: 'https://example.org/' }).submit()"),
}


@pytest.mark.parametrize("is_host", [False, True], ids=["file", "http"])
def test_requests(chromium: Chromium, http_address: str, tmp_path: pathlib.Path, is_host: bool) -> None:
    address = http_address if is_host else FILE_ADDRESS
    chromium.requests()
    page = opened(chromium, address)
    packed = tmp_path / "hole.mvt.gz"
    packed.write_bytes(gzip.compress(path_of("hole_in_hole").read_bytes()))
    page.choose(path_of("crossing_edges"), path_of("truncated"), packed)
    page.click("#list [role=option]:last-child")
    page.until_shown(packed.name)
    page.click("#picture button")
    assert {it for it in chromium.requests() if not it.startswith(("blob:", "data:", "about:"))} == {address}


def refused(browser: Browser, text: str) -> str:
    """What the policy says of a script. (What a driver runs itself is free of the policy, so it is run in a turn of its own.)"""
    page = opened(browser, FILE_ADDRESS)
    page.script(f"""
        const append = (name, words) => document.body.appendChild(Object.assign(document.createElement(name), words));
        document.addEventListener('securitypolicyviolation', (event) => {{ window.refused = event.effectiveDirective; }});
        setTimeout(() => {{ {text} }}, 0);""")
    directive = page.until("return window.refused", seconds=5)
    browser.complaints()  # (it complains, as it should)
    return str(directive)


@pytest.mark.parametrize("name", list(TRIES))
def test_policy(browser: Browser, name: str) -> None:
    directive, text = TRIES[name]
    assert refused(browser, text) == directive


def test_policy_on_texts_as_scripts(chromium: Chromium) -> None:
    assert refused(chromium, "new Function('return 1')()") == "script-src"


def test_one_file(http_address: str) -> None:
    # (beside it are only the parts that mvtgate-planet puts into its reports)
    assert {it.name for it in OUT.iterdir()} - {"report.css", "report.js"} == {"index.html"}
    text = (OUT / "index.html").read_text()
    assert "default-src 'none'" in text and "unsafe-inline" not in text and "'unsafe-eval'" not in text
    assert http_address
