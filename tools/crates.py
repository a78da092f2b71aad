#!/usr/bin/env python3
"""The crates of crates.txt, and whether what was built of them is current: all scripts ask here.

usage: crates.py names                          all crates, as they are listed
       crates.py libraries CRATE                what a crate names, the toolchain's libraries too
       crates.py below CRATE                    the crate and all of this repository that it stands on, the lowest first
       crates.py current CRATE FILE [SOURCE..]  the status 0 where FILE is there, and neither a source of those crates nor a SOURCE
                                                is newer; else 1
       crates.py list CRATE LIST [SOURCE..]     writes those sources to LIST, which tools/current.sh reads

It is run at the top of the repository, or imported.
"""
import contextlib
import functools
import os
import pathlib
import shlex
import sys
from typing import Iterable, Iterator

TOP = pathlib.Path(__file__).resolve().parent.parent
CRATES, FILE = TOP / "crates", TOP / "crates.txt"
# what the code of a crate is built from, and what that is proved with: a proof that is edited later changes neither the code nor
# what was proved of it
SOURCES, PARTS = ("src", "specs"), ("src", "specs", "proofs")


@functools.cache
def listed() -> dict[str, str]:
    """The lines of crates.txt, by the crates that they are about."""
    lines = (it.partition("#")[0] for it in FILE.read_text(encoding="utf-8").splitlines())
    return {it.split(":")[0].split()[0]: it for it in lines if ":" in it}


def is_static(crate: str) -> bool:
    """Whether a crate is built to a static library, for C."""
    return "staticlib" in listed()[crate].partition(":")[0].split()


def is_program(crate: str) -> bool:
    """Whether a crate is built to a program."""
    return (CRATES / crate / "src/main.rt").exists()


def libraries() -> dict[str, list[str]]:
    """What each crate names, the toolchain's libraries too."""
    return {name: line.partition(":")[2].split() for name, line in listed().items()}


@functools.cache
def below() -> dict[str, list[str]]:
    """All crates, each with those of the repository that it stands on, the lowest first."""
    named = libraries()
    found: dict[str, list[str]] = {}

    def visit(crate: str) -> list[str]:
        if crate not in found:
            direct = [it for it in named[crate] if it in named]
            found[crate] = list(dict.fromkeys(one for it in direct for one in (*visit(it), it)))
        return found[crate]

    for it in named:
        visit(it)
    return found


def within(crate: str) -> list[str]:
    """A crate and all that it stands on, the lowest first."""
    return [*below()[crate], crate]


def files(path: pathlib.Path) -> Iterator[pathlib.Path]:
    """A file, or a folder with all files and folders in it."""
    yield path
    for folder, folders, names in os.walk(path):
        yield from (pathlib.Path(folder, it) for it in (*folders, *names))


def sources(crate: str, *others: pathlib.Path) -> list[pathlib.Path]:
    """The files and folders that a crate is built from, and others, as they are now."""
    parts = [CRATES / it / part for it in within(crate) for part in SOURCES]
    return [FILE, *(it for part in (*parts, *others) if part.exists() for it in files(part))]


def is_current(built: pathlib.Path, found: Iterable[pathlib.Path]) -> bool:
    """Whether a file is there and no source is newer. A folder is newer where a file came or went."""
    try:
        time = built.stat().st_mtime_ns
    except OSError:
        return False
    return all(it.lstat().st_mtime_ns <= time for it in found)


def write_list(path: pathlib.Path, found: Iterable[pathlib.Path]) -> None:
    """Writes for tools/current.sh what to compare a file with. The list is newer than the file that it is about."""
    # (where nothing can be written, the next call asks here again)
    with contextlib.suppress(OSError):
        # (of this process alone, since others may write the list meanwhile)
        new = path.with_name(f"{path.name}.{os.getpid()}")
        new.write_text("sources=" + shlex.quote("\n".join(str(it.relative_to(TOP)) for it in found)) + "\n", encoding="utf-8")
        new.replace(path)


def print_lines(lines: Iterable[str]) -> None:
    sys.stdout.writelines(f"{it}\n" for it in lines)


def main(words: list[str]) -> int:
    match words:
        case ["names"]:
            print_lines(listed())
        case ["libraries", crate]:
            print_lines(libraries()[crate])
        case ["below", crate]:
            print_lines(within(crate))
        case ["current", crate, file, *others]:
            return not is_current(pathlib.Path(file), sources(crate, *map(pathlib.Path, others)))
        case ["list", crate, file, *others]:
            write_list(pathlib.Path(file), sources(crate, *(pathlib.Path(it).resolve() for it in others)))
        case _:
            print(__doc__, file=sys.stderr)
            return 2
    return 0


if __name__ == "__main__":
    sys.exit(main(sys.argv[1:]))
