"""What operators need: metrics, health, the log, the end, settings, and HTTP/2 to the server."""
from __future__ import annotations

import contextlib
import pathlib
import signal
import socket
import subprocess
import threading
import time
from typing import List

import pytest

from conftest import CUT, FAULTY, VALID
from running import PROGRAM, SECONDS, TOP, Proxy, Reply, ask, nginx, nginx_of, proxy, until_death, wait_until
from upstream import Asked, reply, tile, upstream

TILE = "/1/2/3.mvt"


def by_path(asked: Asked) -> bytes:
    return tile({"0": VALID, "1": FAULTY, "2": CUT}[asked.target.split("/")[3]])


def test_metrics_count_tiles_by_verdict_code_and_layer() -> None:
    with upstream(by_path) as server, proxy(server.url, "--mode", "mend", "--last-good", "1M") as gate:
        before = gate.metrics()
        assert before['mvtgate_proxy_tiles_total{answer="refused",verdict="fault"}'] == 0
        for path in ("/1/2/0", "/1/2/0", "/1/2/1", "/1/2/2", "/1/2/2", "/1/2/2"):
            gate.get(path)
        assert gate.metric('tiles_total{answer="sent",verdict="valid"}') == 2
        assert gate.metric('tiles_total{answer="mended",verdict="fault"}') == 1
        assert gate.metric('tiles_total{answer="refused",verdict="fault"}') == 3
        assert gate.metric('faults_total{answer="mended",code="504",layer="a"}') == 1
        assert sum(value for name, value in gate.metrics().items() if name.startswith("mvtgate_proxy_faults_total")) == 4
        assert gate.metric('requests_total{status="200"}') == 3 and gate.metric('requests_total{status="500"}') == 3
        # (what was judged once is remembered)
        assert gate.metric("judge_seconds_count") == 3 == gate.metric("remembered_verdicts")
        assert gate.metric("upstream_seconds_count") == gate.metric("request_seconds_count") == 6
        assert gate.metric("last_good_tiles") == 2 and gate.metric("judging") == 0
        assert gate.metrics()["go_goroutines"] > 0 and gate.metrics()["process_resident_memory_bytes"] > 0


def named(name: bytes) -> bytes:
    """A tile with a layer of this name, whose version is 1."""
    payload = b"\x78\x01\x0a" + bytes([len(name)]) + name
    return b"\x1a" + bytes([len(payload)]) + payload


def test_names_of_layers_are_few_labels() -> None:
    with upstream(lambda asked: tile(named(asked.target.split("/")[3].encode()))) as server:
        with proxy(server.url, "--mode", "refuse", "--path", "^/1/2/", "--log-lines", "1") as gate:
            for number in range(300):
                assert gate.get(f"/1/2/{number}").status == 500
            names = {name for name in gate.metrics() if name.startswith("mvtgate_proxy_faults_total")}
            assert len(names) == 201 and gate.metric('faults_total{answer="refused",code="201",layer="other"}') == 100


def left_out(gate: Proxy) -> int:
    """How many lines the log counts that it left out."""
    return sum(int(it["lines"]) for it in gate.lines("left_out"))


def test_the_log_has_few_lines_a_second_and_counts_the_others() -> None:
    with upstream(lambda _: tile(FAULTY)) as server, proxy(server.url, "--mode", "refuse", "--log-lines", "5") as gate:
        begun = time.time()
        for _ in range(200):
            gate.get(TILE)
        wait_until(lambda: len(gate.lines("fault")) + left_out(gate) == 200)
        seconds = int(time.time()) - int(begun) + 1
        assert 0 < len(gate.lines("fault")) <= 5 * seconds and len(gate.lines("left_out")) <= seconds
        assert gate.metric("log_lines_left_out_total") == left_out(gate)
        line = gate.lines("fault")[0]
        assert (line["address"], line["answer"], line["code"], line["layer"]) == (TILE, "refused", 504, "a")
        assert line["fault"]["code"] == 504 and line["sentence"].startswith("In feature 0 of layer 0, edge ")


def test_health_is_that_of_the_server() -> None:
    states = [reply(b"up"), reply(b"up", status="404 Not Found"), reply(b"down", status="503 Service Unavailable")]
    with upstream(lambda asked: states[0] if asked.target == "/base/health?a=b" else None) as server:
        with proxy(server.url + "/base", "--health-path", "/health?a=b") as gate:

            def health() -> Reply:
                return ask(gate.admin, "/healthz")

            assert (health().status, health().json()) == (200, {"status": "ok"})
            states.pop(0)
            assert health().status == 200
            states.pop(0)
            assert health().status == 503 and "503" in health().json()["error"]
            server.close()
            assert health().status == 503 and health().headers["Cache-Control"] == "no-store"
            assert ask(gate.admin, TILE).status == 404


def test_a_server_that_hangs_is_not_healthy_and_is_asked_once() -> None:
    def hang(asked: Asked) -> None:
        asked.connection.recv(1)

    with upstream(hang) as server, proxy(server.url) as gate:
        answers: List[int] = []
        asking = [threading.Thread(target=lambda: answers.append(ask(gate.admin, "/healthz").status)) for _ in range(10)]
        for it in asking:
            it.start()
        for it in asking:
            it.join()
        assert answers == [503] * 10 and len(server.asked) < 10


def test_a_signal_ends_it_after_what_is_under_way() -> None:
    goes_on = threading.Event()

    def answer(asked: Asked) -> bytes:
        assert goes_on.wait(SECONDS)
        return tile(VALID)

    with upstream(answer) as server, proxy(server.url, "--drain-time", "10m") as gate:
        bodies: List[bytes] = []
        asking = threading.Thread(target=lambda: bodies.append(gate.get(TILE).body))
        asking.start()
        wait_until(lambda: len(server.asked) == 1)
        gate.process.send_signal(signal.SIGTERM)
        wait_until(lambda: bool(gate.lines("draining")))
        assert ask(gate.admin, "/healthz").json() == {"error": "the server is ending"}

        def is_closed() -> bool:
            try:
                gate.connect().close()
            except ConnectionRefusedError:
                return True
            return False

        wait_until(is_closed)
        assert gate.process.poll() is None
        goes_on.set()
        asking.join()
        assert bodies == [VALID] and gate.process.wait(SECONDS) == 0


def test_systemd_is_told_when_it_listens_and_when_it_ends(tmp_path: pathlib.Path) -> None:
    address = str(tmp_path / "notify")
    with socket.socket(socket.AF_UNIX, socket.SOCK_DGRAM) as told, upstream(lambda _: tile(VALID)) as server:
        told.bind(address)
        told.settimeout(SECONDS)
        with proxy(server.url, environment={"NOTIFY_SOCKET": address}) as gate:
            assert told.recv(100) == b"READY=1" and gate.get(TILE).body == VALID
        assert told.recv(100) == b"STOPPING=1" and gate.process.returncode == 0


def test_a_socket_of_systemd_that_is_not_there_is_logged(tmp_path: pathlib.Path) -> None:
    with upstream(lambda _: tile(VALID)) as server, proxy(server.url, environment={"NOTIFY_SOCKET": str(tmp_path / "none")}) as gate:
        assert gate.get(TILE).body == VALID
        wait_until(lambda: any("READY=1" in it["message"] for it in gate.lines("server")))


def test_what_takes_too_long_is_cut_at_the_end() -> None:
    with upstream(lambda asked: asked.connection.recv(1) or None) as server, proxy(server.url, "--drain-time", "100ms") as gate:
        with gate.connect() as client:
            client.sendall(b"GET /1/2/3.mvt HTTP/1.1\r\nHost: a\r\n\r\n")
            wait_until(lambda: len(server.asked) == 1)
            gate.process.send_signal(signal.SIGTERM)
            assert gate.process.wait(SECONDS) == 0
        assert len(gate.lines("cut")) == 1


def test_settings_come_from_the_environment_and_words_count_more() -> None:
    with upstream(lambda _: tile(FAULTY)) as server:
        environment = {"MVTGATE_PROXY_MODE": "refuse", "MVTGATE_PROXY_LOG_LINES": "7"}
        with proxy(server.url, environment=environment) as gate:
            assert gate.get(TILE).status == 500
        with proxy(server.url, "--mode", "report", environment=environment) as gate:
            assert gate.get(TILE).status == 200


def said(*words: str, **environment: str) -> "subprocess.CompletedProcess[str]":
    return subprocess.run(until_death(PROGRAM, *words), env=environment, capture_output=True, text=True, timeout=SECONDS)


@pytest.mark.parametrize(
    "words",
    [
        [],
        ["--upstream", "127.0.0.1:3000"],
        ["--upstream", "ftp://a"],
        ["--upstream", "http://name:secret@a"],
        ["--upstream", "http://a", "more"],
        ["--upstream", "http://a", "--mode", "repair"],
        ["--upstream", "http://a", "--profile", "polygons"],
        ["--upstream", "http://a", "--path", "("],
        ["--upstream", "http://a", "--last-good", "1T"],
        ["--upstream", "http://a", "--last-good", "-1"],
        ["--upstream", "http://a", "--max-tile", "1G"],
        ["--upstream", "http://a", "--mode", "mend", "--memory", "3G"],
        ["--upstream", "http://a", "--judgements", "0"],
        ["--upstream", "http://a", "--upstream-time", "0s"],
        ["--upstream", "http://a", "--health-path", "x"],
        ["--none"],
    ],
)
def test_wrong_words_are_said(words: List[str]) -> None:
    run = said(*words)
    assert run.returncode == 2 and run.stderr and not run.stdout


def test_a_wrong_variable_is_named() -> None:
    run = said("--upstream", "http://a", MVTGATE_PROXY_MODE="repair")
    assert run.returncode == 2 and "MVTGATE_PROXY_MODE" in run.stderr


def test_an_address_that_is_taken() -> None:
    with upstream(lambda _: None) as server:
        taken = server.url.partition("//")[2]
        for words in (["--listen", taken, "--admin", ""], ["--listen", "127.0.0.1:0", "--admin", taken]):
            run = said("--upstream", "http://a", *words)
            assert run.returncode == 1 and "in use" in run.stderr


def test_help_and_version() -> None:
    assert said("--version").stdout == f"mvtgate-proxy {(TOP / 'VERSION').read_text()}"
    run = said("--help")
    assert run.returncode == 0 and "--last-good SIZE" in run.stderr


def certificate(folder: pathlib.Path) -> pathlib.Path:
    words = ["openssl", "req", "-x509", "-newkey", "ec", "-pkeyopt", "ec_paramgen_curve:P-256", "-nodes", "-days", "2", "-subj", "/CN=test"]
    words += ["-addext", "subjectAltName=IP:127.0.0.1", "-keyout", str(folder / "key.pem"), "-out", str(folder / "cert.pem")]
    subprocess.run(words, check=True, capture_output=True)
    return folder / "cert.pem"


def test_http_2_to_the_server(tmp_path: pathlib.Path) -> None:
    made = certificate(tmp_path)
    (tmp_path / "1/2").mkdir(parents=True)
    (tmp_path / "1/2/3.mvt").write_bytes(VALID)
    (tmp_path / "1/2/4.mvt").write_bytes(FAULTY)

    def configuration(folder: pathlib.Path, port: int) -> str:
        secured = f"ssl_certificate {made}; ssl_certificate_key {tmp_path}/key.pem; add_header X-Protocol $server_protocol; root {tmp_path};"
        return nginx_of(f"server {{ listen 127.0.0.1:{port} ssl http2; {secured} }}", folder)

    with nginx(configuration) as url, proxy(url.replace("http:", "https:"), "--mode", "refuse", environment={"SSL_CERT_FILE": str(made)}) as gate:
        answer = gate.get(TILE)
        assert (answer.status, answer.body, answer.headers["X-Protocol"]) == (200, VALID, "HTTP/2.0")
        assert gate.get("/1/2/4.mvt").status == 500
    with nginx(configuration) as url, proxy(url.replace("http:", "https:"), "--mode", "refuse") as gate:
        # (nobody has signed it)
        assert gate.get(TILE).status == 502


def test_the_admin_address_can_be_left_out() -> None:
    with upstream(lambda _: tile(VALID)) as server, contextlib.ExitStack() as after:
        words = [PROGRAM, "--upstream", server.url, "--listen", "127.0.0.1:0", "--admin", ""]
        process = subprocess.Popen(until_death(*words), stderr=subprocess.PIPE, text=True)
        after.callback(process.wait)
        after.callback(process.terminate)
        assert process.stderr is not None
        assert '"admin":""' in process.stderr.readline()
        process.stderr.close()
