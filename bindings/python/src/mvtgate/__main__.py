"""python3 -m mvtgate check FILE..: the command mvtgate-check, where it isn't installed as a program."""
from __future__ import annotations

import argparse
import sys
from typing import List, Optional

from . import version
from .checking import command


def main(words: Optional[List[str]] = None) -> int:
    """Runs the command and returns its exit status."""
    reader = argparse.ArgumentParser(prog="mvtgate", description="Judges Mapbox vector tiles.")
    reader.add_argument("--version", action="version", version=f"mvtgate {version()}")
    commands = reader.add_subparsers(required=True, metavar="COMMAND")
    commands.add_parser("check", add_help=False, help="judge files, folders and MBTiles files: the same as mvtgate-check")
    words = sys.argv[1:] if words is None else words
    if words[:1] == ["check"]:
        return command.main(words[1:])
    reader.parse_args(words)
    return 2


if __name__ == "__main__":
    sys.exit(main())
