"""A library that takes very long for each tile. When it begins it makes a file SLOW_NOTE.PID."""
from __future__ import annotations

import shutil
import subprocess

import pytest

CODE = """
#include <fcntl.h>
#include <stddef.h>
#include <stdint.h>
#include <stdio.h>
#include <stdlib.h>
#include <unistd.h>
int mvtgate_check(uint32_t profile, const uint8_t *tile, size_t length, char *text, size_t room, size_t *written) {
    char note[4096];
    snprintf(note, sizeof note, "%s.%d", getenv("SLOW_NOTE"), (int)getpid());
    close(open(note, O_CREAT | O_WRONLY, 0600));
    for (int at = 0; at < 600; at++) sleep(1);
    return 0;
}
int mvtgate_check_quickly(void) { return 0; }
int mvtgate_faults(void) { return 0; }
int mvtgate_faults_quickly(void) { return 0; }
int mvtgate_mend(void) { return 0; }
int mvtgate_confirm(void) { return 0; }
int mvtgate_dump(void) { return 0; }
int mvtgate_advise(void) { return 0; }
uint32_t mvtgate_version(void) { return 0; }
"""


@pytest.fixture(scope="module")
def slow_library(tmp_path_factory: pytest.TempPathFactory) -> str:
    if shutil.which("gcc") is None:
        pytest.skip("there is no gcc, which makes the library that is slow")
    room = tmp_path_factory.mktemp("slow")
    (room / "slow.c").write_text(CODE)
    subprocess.run(["gcc", "-shared", "-fPIC", "-o", room / "libslow.so", room / "slow.c"], check=True)
    return str(room / "libslow.so")
