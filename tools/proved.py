#!/usr/bin/env python3
"""Which libraries are proved as their crates stand. They lie in out/proved, where `rt` doesn't look, with the sum of what they were
made from: they hold statements and no proofs, and fit the libraries that they were made over alone.

usage: proved.py sums    a line for each crate for which `rt` has no library: its name and its sum
       proved.py gate    takes over what .ci/gate left, with the lines of `proved.py sums` from before it on standard input
"""
import functools
import hashlib
import pathlib
import shutil
import subprocess
import sys

sys.dont_write_bytecode = True
from crates import CRATES, PARTS, files, listed, within

# in a crate's folder: its library, and in it the sum that it was made from
PROVED, SUM = "out/proved", "sum"


def library_of(crate: str, crates: pathlib.Path = CRATES) -> pathlib.Path:
    """Where the proved library of a crate in the folder `crates` lies."""
    return crates / crate / PROVED / f"{crate}.rlib"


@functools.cache
def toolchain() -> str:
    return subprocess.run(["rt", "version"], stdout=subprocess.PIPE, check=True, text=True).stdout


@functools.cache
def own_sum(crate: str) -> bytes:
    """The sum of a crate's line and files."""
    total = hashlib.sha256(listed()[crate].encode())
    for part in PARTS:
        for path in sorted(it for it in files(CRATES / crate / part) if it.is_file()):
            content = path.read_bytes()
            total.update(f"\n{path.relative_to(CRATES)} {len(content)}\n".encode() + content)
    return total.digest()


def sum_of(crate: str) -> str:
    """The sum of all that a crate's library is made from."""
    parts = b"".join(own_sum(it) for it in within(crate))
    return hashlib.sha256(toolchain().encode() + parts).hexdigest()


def note(crate: str, total: str) -> None:
    """Notes that the library of a crate was made from the files with this sum."""
    (CRATES / crate / PROVED / SUM).write_text(f"{total}\n", encoding="ascii")


def is_noted(crate: str) -> bool:
    """Whether a library was made from the crate as it is now."""
    try:
        return (CRATES / crate / PROVED / SUM).read_text(encoding="ascii").strip() == sum_of(crate)
    except OSError:
        return False


def is_proved(crate: str) -> bool:
    """Whether the libraries of a crate and of all that it stands on were made from these as they are now."""
    return all(is_noted(it) for it in within(crate))


def made_by_rt(crate: str) -> pathlib.Path:
    """Where `rt` makes a crate's library. What is there before the gate runs it puts back afterwards, even what a gate left that failed."""
    return CRATES / crate / "out/rlib"


def take_over(lines: list[str]) -> None:
    """Takes over the libraries that the gate made. (One with a stamp is of another run.)"""
    for crate, total in (it.split() for it in lines):
        made, to = made_by_rt(crate), CRATES / crate / PROVED
        if made.is_dir() and not (made / "stamp").exists() and total == sum_of(crate):
            shutil.rmtree(to, ignore_errors=True)
            made.rename(to)
            note(crate, total)


if __name__ == "__main__":
    if sys.argv[1:] == ["sums"]:
        sys.stdout.writelines(f"{it} {sum_of(it)}\n" for it in listed() if not made_by_rt(it).exists())
    elif sys.argv[1:] == ["gate"]:
        take_over(sys.stdin.read().splitlines())
    else:
        sys.exit(__doc__)
