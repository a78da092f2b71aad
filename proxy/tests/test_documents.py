"""The files of docs/PROXY.md and of the package, as they stand, in a network of their own, so that their ports are free."""
from __future__ import annotations

import os
import pathlib
import re
import signal
import subprocess
from typing import Dict, List

import pytest

from conftest import FAULTY, VALID
from running import HERE, PROGRAM, SECONDS, TOP, nginx_of, until_death

DOCUMENT = (TOP / "docs/PROXY.md").read_text()
UNIT = TOP / "packaging/proxy/mvtgate-proxy.service"
MANUAL = (TOP / "packaging/mvtgate-proxy.1").read_text()


def block(language: str, having: str) -> str:
    """The block of code of the document that has these words."""
    found = [it for it in re.findall(rf"```{language}\n(.*?)```", DOCUMENT, re.DOTALL) if having in it]
    assert len(found) == 1, having
    return str(found[0])


def unit(name: str) -> List[str]:
    return re.findall(rf"(?m)^{name}=(.*)$", UNIT.read_text())


def variables(text: str) -> Dict[str, str]:
    """A file of settings as systemd reads it."""
    return dict(re.findall(r"(?m)^(\w+)=(.*)$", text))


def flags() -> List[str]:
    run = subprocess.run([PROGRAM, "--help"], capture_output=True, text=True, check=True)
    return re.findall(r"(?m)^  --([a-z-]+)", run.stderr)


def test_settings_of_the_documents_are_flags() -> None:
    names = {"MVTGATE_PROXY_" + it.upper().replace("-", "_") for it in flags()}
    packaged = variables((TOP / "packaging/proxy/default").read_text())
    shown = variables(block("sh", "MVTGATE_PROXY_MODE"))
    assert {*packaged, *shown} <= names and "MVTGATE_PROXY_UPSTREAM" in packaged
    assert unit("EnvironmentFile") == ["/etc/default/mvtgate-proxy"] and unit("ExecStart") == ["/usr/bin/mvtgate-proxy"] and unit("Type") == ["notify"]
    assert set(re.findall(r"`--([a-z-]+)[ `]", DOCUMENT)) <= {*flags(), "help"}


def test_a_crash_is_not_taken_for_wrong_settings() -> None:
    """The unit starts again what ended by a signal, and not what ended with 2."""
    assert unit("RestartPreventExitStatus") == ["2"]
    environment = {**os.environ, **dict(it.split("=", 1) for it in unit("Environment"))}
    words = until_death(PROGRAM, "--upstream", "http://127.0.0.1:9", "--listen", "127.0.0.1:0", "--admin", "")
    with subprocess.Popen(words, env=environment, stderr=subprocess.PIPE, text=True) as process:
        assert process.stderr is not None and "listening" in process.stderr.readline()
        process.send_signal(signal.SIGQUIT)
        said = process.stderr.read()
    assert process.returncode == -signal.SIGABRT and "goroutine" in said


def test_the_manual_page_and_the_completion_have_all_flags() -> None:
    wanted = sorted([*flags(), "help"])
    shown = [name for line in re.findall(r"(?m)^\.It Fl Fl (.*)$", MANUAL) for name in re.findall(r"(?:^|Fl Fl )([a-z-]+)", line)]
    assert sorted(shown) == wanted
    script = '. "$1"; COMP_WORDS=(mvtgate-proxy --) COMP_CWORD=1; _mvtgate_proxy; printf "%s\\n" "${COMPREPLY[@]}"'
    said = subprocess.run(["bash", "-c", script, "bash", str(TOP / "packaging/mvtgate-proxy.bash-completion")], capture_output=True, text=True, check=True)
    assert sorted(said.stdout.split()) == [f"--{it}" for it in wanted]


def test_the_unit_is_understood_and_hardened(tmp_path: pathlib.Path) -> None:
    # (systemd looks whether the program is there, and for the manual page, which only the package brings)
    made = tmp_path / UNIT.name
    made.write_text(UNIT.read_text().replace("/usr/bin/mvtgate-proxy", PROGRAM).replace("Documentation=man:mvtgate-proxy(1)\n", ""))
    said = subprocess.run(["systemd-analyze", "verify", str(made)], capture_output=True, text=True)
    assert [it for it in said.stderr.splitlines() if UNIT.name in it] == []
    security = subprocess.run(["systemd-analyze", "security", "--offline=true", "--threshold=20", str(made)], capture_output=True, text=True)
    assert security.returncode == 0, security.stdout[-200:]


def test_the_files_work_together(tmp_path: pathlib.Path) -> None:
    if os.geteuid() != 0:
        pytest.skip("a network of its own takes root")
    files = tmp_path / "files/1/2"
    files.mkdir(parents=True)
    (files / "3.mvt").write_bytes(VALID)
    (files / "4.mvt").write_bytes(FAULTY)
    settings = variables(block("sh", "MVTGATE_PROXY_MODE"))
    port = settings["MVTGATE_PROXY_UPSTREAM"].rpartition(":")[2]
    (tmp_path / "map.conf").write_text(nginx_of(f"server {{ listen {port}; root {tmp_path}/files; }}", tmp_path).replace("/pid;", "/map.pid;"))
    # (Debian's nginx.conf takes such files into its block `http` too; its cache has to be where this user may write)
    shown = block("nginx", "proxy_pass").replace("/var/cache/nginx", f"{tmp_path}/cache")
    (tmp_path / "front.conf").write_text(nginx_of(shown, tmp_path))
    run = subprocess.run(
        ["unshare", "--net", *until_death("bash", str(HERE / "together.sh"), str(tmp_path), PROGRAM)],
        env={**os.environ, **settings},
        capture_output=True,
        text=True,
        timeout=SECONDS,
    )
    assert run.returncode == 0, run.stdout + run.stderr
    valid, faulty, metrics, health = (tmp_path / it for it in ("valid", "faulty", "metrics", "health"))
    assert valid.read_bytes().endswith(b"\r\n\r\n" + VALID) and b"X-Tile-Fault" not in valid.read_bytes()
    assert faulty.read_bytes().endswith(b"\r\n\r\n" + FAULTY) and b'X-Tile-Fault: {"code":504' in faulty.read_bytes()
    assert 'mvtgate_proxy_faults_total{answer="reported",code="504",layer="a"} 1' in metrics.read_text()
    assert health.read_text() == '{"status":"ok"}\n'
