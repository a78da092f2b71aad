#!/usr/bin/env python3
"""The words with which a crate is built over what tools/prove has proved: rattle.py CRATE CPU prints those for a static library, one
a line, without those that say what is made. They are for a call in the crate's folder."""
import pathlib
import subprocess
import sys
from typing import Optional

sys.dont_write_bytecode = True
from crates import CRATES, below, is_program, is_static, libraries
from proved import library_of

# where `rt` keeps what it has proved of a crate, and so does this
KEPT = "out/incremental"


def toolchain() -> pathlib.Path:
    """The toolchain's folder."""
    said = subprocess.run(["rt", "doc"], stdout=subprocess.PIPE, check=True, text=True).stdout
    return pathlib.Path(said.strip()).parent


def words(crate: str, jobs: int, crates: pathlib.Path = CRATES, cpu: Optional[str] = None) -> list[str]:
    """The words for a crate in the folder `crates`. Of a library what is proved over it loads its statements, and not its proofs, as
    in `rt ci`; so nothing of its proof is kept."""
    kit = toolchain()
    found = ["--crate-name", crate, "src/main.rt" if is_program(crate) else "src/lib.rt", *([f"--cpu={cpu}"] if cpu else [])]
    found += ["--extern", f"std={kit}/rlibs/std.rlib", "-L", f"dependency={kit}/rlibs"]
    for it in libraries()[crate]:
        # (the others are the toolchain's)
        found += ["--extern", f"{it}={library_of(it, crates) if it in libraries() else f'{kit}/rlibs/{it}.rlib'}"]
    for it in below()[crate]:
        found += ["-L", f"dependency={library_of(it, crates).parent}"]
    found += ["--antt-project", f"{kit}/rattle/logic/antt-project.json", "--logic-built", f"{kit}/logic_built"]
    found += ["--jobs", str(jobs), "--links", f"{crate}="]
    if is_static(crate):
        found += ["--crate-type", "staticlib"]
    is_linked = is_static(crate) or is_program(crate)
    return found + (["--incremental", KEPT, "--backend", "llvm"] if is_linked else ["--statements"])


if __name__ == "__main__":
    sys.stdout.writelines(f"{it}\n" for it in words(sys.argv[1], 1, cpu=sys.argv[2]))
