"""Types at a real bash, with TAB, and says what came: typed.py FILE: the bash reads FILE, which is the completion, or the script
of the package bash-completion, by which it then finds that in a folder of XDG_DATA_DIRS.

The last line is 'N passed, M failed'.
"""
from __future__ import annotations

import os
import pathlib
import pty
import re
import select
import shlex
import sys
import tempfile
import time
from typing import List, Tuple

# what is typed, and the words of the command line that the program is then called with
TYPED: List[Tuple[str, List[str]]] = [
    ("mvtgate ch\tpoi\t", ["check", "point.mvt"]),
    ("mvtgate check --pro\tfe\tpoi\t", ["check", "--profile", "feature", "point.mvt"]),
    ("mvtgate check --profile=p\t\tpoi\t", ["check", "--profile=polygon", "point.mvt"]),
    ("mvtgate check --ad\tpoi\t", ["check", "--advice", "point.mvt"]),
    ("mvtgate dump a\\ \t", ["dump", "a tile.mvt"]),
    ("mvtgate dump 'a t\t", ["dump", "a tile.mvt"]),
    ("mvtgate con\tpoi\tfa\t", ["confirm", "point.mvt", "fault.json"]),
    ("mvtgate fie\tfol\tdee\t", ["fields", "folder/deep.mvt"]),
    ("mvtgate me\t--dr\tpoi\t", ["mend", "--drop", "point.mvt"]),
    ("mvtgate help du\t", ["help", "dump"]),
]
PROMPT = b"ready> "
# what stands for the program shows its words
SCRIPT = """. {source}
mvtgate() {{ printf '<%s>' "$@"; echo .; }}
PS1='{prompt}'
"""


class Bash:
    """An interactive bash at a terminal of its own."""

    def __init__(self, folder: pathlib.Path, script: str) -> None:
        self.process, self.end = pty.fork()
        if self.process == 0:
            os.chdir(folder)
            keep = {key: os.environ[key] for key in ("PATH", "XDG_DATA_DIRS") if key in os.environ}
            words = ["bash", "--noprofile", "--rcfile", script, "-i"]
            # (wide, so that readline never scrolls a line; without bracketed paste there are no marks around it)
            os.execvpe("bash", words, {**keep, "TERM": "dumb", "COLUMNS": "400", "INPUTRC": "/dev/null"})
        self.until(PROMPT)

    def until(self, wanted: bytes, seconds: float = 60) -> bytes:
        """What bash writes up to these bytes."""
        read, last = b"", time.monotonic() + seconds
        while wanted not in read:
            if not select.select([self.end], [], [], max(0.0, last - time.monotonic()))[0]:
                raise TimeoutError(f"bash wrote only {read!r}")
            read += os.read(self.end, 65536)
        return read

    def words(self, typed: str) -> List[str]:
        """The words that the program is called with after this was typed."""
        os.write(self.end, typed.encode() + b"\n")
        read = self.until(b">.\r\n" + PROMPT).decode()
        return re.findall("<([^<>]*)>", read[read.rindex("\r\n<") if "\r\n<" in read else 0 :])

    def close(self) -> None:
        os.write(self.end, b"exit\n")
        os.waitpid(self.process, 0)
        os.close(self.end)


def main() -> None:
    source = shlex.quote(str(pathlib.Path(sys.argv[-1]).resolve()))
    failed = 0
    with tempfile.TemporaryDirectory() as room:
        folder = pathlib.Path(room, "work")
        (folder / "folder").mkdir(parents=True)
        for name in ("point.mvt", "fault.json", "a tile.mvt", "folder/deep.mvt"):
            (folder / name).touch()
        script = pathlib.Path(room, "script")
        script.write_text(SCRIPT.format(source=source, prompt=PROMPT.decode()))
        bash = Bash(folder, str(script))
        for typed, wanted in TYPED:
            found = bash.words(typed)
            if found != wanted:
                failed += 1
                print(f"{typed!r} gave {found}, and not {wanted}")
        bash.close()
    print(f"{len(TYPED) - failed} passed, {failed} failed")
    sys.exit(bool(failed))


main()
