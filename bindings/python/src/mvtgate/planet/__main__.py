"""mvtgate-planet FILE..: judges all tiles of MBTiles files, PMTiles archives and folders with files z/x/y.mvt, on all processors.

What was found is written into a folder: faults.jsonl has a line for each tile that isn't valid, or by --all for each fault of it, and
report.html shows it. Where a run was interrupted, the same words go on with it. Exit status 0: all tiles are valid. 1: some aren't. 2:
the run has ended, and some tiles couldn't be judged, or their faults not confirmed. 3: these words, this file or this machine won't do.
4: the run was interrupted, its scheduler has gone or a disk is full; the same words go on with it. 70: a mistake in this program. From 3
on standard error says why.
"""
from __future__ import annotations

import argparse
import contextlib
import importlib.util
import os
import re
import signal
import sys
import traceback
import warnings
from fractions import Fraction
from typing import Any, List, NoReturn, Optional, Tuple

import mvtgate

from ..checking.lines import have_errors
from .cluster import default_workers
from .endings import Ending, Refused, Status, ending_of
from .outputs import REPORT, Counts
from .settings import Settings
from .window import LAST_ZOOM, Box, Window, box_of, zooms_of

# what the module alone doesn't need, and Debian's packages of it
_NEEDED = {"distributed": "python3-distributed", "jinja2": "python3-jinja2", "tqdm": "python3-tqdm"}


def positive(word: str) -> int:
    """A number of at least one."""
    number = int(word)
    if number < 1:
        raise argparse.ArgumentTypeError("it is at least 1")
    return number


def count(word: str) -> int:
    """A number of tiles."""
    number = int(word)
    if number < 0:
        raise argparse.ArgumentTypeError("it is at least 0")
    return number


def rate(word: str) -> Fraction:
    """A share, from 0 to 1 or in percent."""
    found = re.fullmatch(r"(\d{1,9}(?:\.\d{1,15})?|\.\d{1,15})(%?)", word, re.ASCII)
    share = Fraction(found[1]) / (100 if found[2] else 1) if found else Fraction(2)
    if share > 1:
        raise argparse.ArgumentTypeError("it is from 0 to 1, or from 0% to 100%")
    return share


def zooms(word: str) -> Tuple[int, int]:
    """Zooms from a first to a last one."""
    try:
        return zooms_of(word)
    except ValueError:
        raise argparse.ArgumentTypeError(f"a zoom is from 0 to {LAST_ZOOM}, and several are such as 3-10") from None


def box(word: str) -> Box:
    """A box of the earth."""
    try:
        return box_of(word)
    except ValueError:
        raise argparse.ArgumentTypeError("a box is west,south,east,north in degrees, with west less than east and south less than north") from None


class Words(argparse.ArgumentParser):
    """A parser whose exit status for wrong words is that of a run that is refused."""

    def error(self, message: str) -> NoReturn:
        self.print_usage(sys.stderr)
        self.exit(Status.REFUSED, f"{self.prog}: {message}\n")


def arguments() -> argparse.ArgumentParser:
    """The words that the command takes."""
    first, _, rest = (__doc__ or "").partition("\n\n")
    description = first.replace("mvtgate-planet FILE..: j", "J")
    reader = Words(prog="mvtgate-planet", description=description, epilog=rest)
    reader.add_argument("--version", action="version", version=f"mvtgate-planet {mvtgate.version()}")
    reader.add_argument("file", nargs="*", metavar="FILE", help="an MBTiles file, a PMTiles archive, or a folder with files z/x/y.mvt (or .pbf)")
    reader.add_argument("--list", metavar="NAMES", help="a file with more of them, one a line")
    reader.add_argument("--output", metavar="FOLDER", help="where the results go (the name of the first FILE, with .mvtgate)")
    reader.add_argument("--profile", choices=("polygon", "feature"), default="polygon", help="what polygons are held against (polygon)")
    reader.add_argument("--all", action="store_true", help="name each faulty layer and feature of a tile, and not the first one alone")
    reader.add_argument("--advice", action="store_true", help="write advice.jsonl, too: what may be a mistake in a valid tile")
    reader.add_argument("--mend", metavar="OUT", help="write a copy of FILE in which the tiles are mended whose polygons break the rules")
    reader.add_argument("--drop", action="store_true", help="with --mend, leave out features that can't be mended")
    reader.add_argument("--since", metavar="RUN", help="judge only tiles whose bytes are others than in this folder's run, and say what is new")
    reader.add_argument("--zoom", type=zooms, default=(0, LAST_ZOOM), metavar="ZOOMS", help="judge the tiles of a zoom, as 14, or of some, as 3-10")
    reader.add_argument("--bbox", type=box, metavar="W,S,E,N", help="judge the tiles of a box: west, south, east and north in degrees")
    reader.add_argument("--layer", action="append", default=[], metavar="NAME", help="look for faults in this layer alone; it may be given again")
    reader.add_argument("--max-faults", type=count, metavar="N", help="have the status 0 where at most N tiles have a fault")
    reader.add_argument("--max-rate", type=rate, metavar="SHARE", help="have the status 0 where at most this share of the tiles has a fault, as 0.001 or 0.1%%")
    reader.add_argument("--junit", metavar="REPORT", help="write a report for CI servers: JUnit's XML with a case for each zoom")
    reader.add_argument("--workers", type=positive, metavar="N", help="workers on this machine (one for each processor)")
    reader.add_argument("--scheduler", metavar="ADDRESS", help="use the workers of this Dask scheduler, such as tcp://host:8786")
    reader.add_argument("--partition", type=positive, metavar="N", help="tiles that a worker gets at a time (a 64th of all, from 4000 to 16000)")
    reader.add_argument("--anew", action="store_true", help="forget what an earlier run into this folder found")
    return reader


def paths_of(said: argparse.Namespace) -> List[str]:
    """The files and folders that are named. Refused where there is none."""
    paths: List[str] = list(said.file)
    if said.list is not None:
        try:
            with open(said.list, encoding="utf-8", errors="surrogateescape") as file:
                paths += [line for line in file.read().split("\n") if line]
        except OSError as error:
            raise ending_of(error) from None
        if any("\0" in it for it in paths):
            raise Refused(f"{said.list}: it has zero bytes, which no name has; names stand one a line")
    if not paths:
        raise Refused("no FILE is named")
    return paths


def settings_of(said: argparse.Namespace) -> Settings:
    """What the words ask for."""
    paths = paths_of(said)
    if said.drop and said.mend is None:
        raise Refused("--drop is for --mend")
    return Settings(
        paths=paths,
        output=said.output or f"{os.path.basename(os.path.abspath(paths[0]))}.mvtgate",
        profile=said.profile,
        has_advice=said.advice,
        has_all=said.all,
        workers=said.workers or default_workers(),
        scheduler=said.scheduler,
        partition=said.partition,
        is_anew=said.anew,
        mend=said.mend,
        is_dropping=said.drop,
        since=said.since,
        window=Window(said.zoom[0], said.zoom[1], said.bbox),
        layers=tuple(said.layer),
        junit=said.junit,
    )


def summary(counts: Counts, has_all: bool, is_mending: bool = False) -> str:
    """The last line."""
    said = [f"{counts.valid} valid", f"{counts.faulty} with a fault"]
    if has_all:
        said.append(f"{counts.faults} fault{'' if counts.faults == 1 else 's'} in all")
    if counts.failed:
        said.append(f"{counts.failed} not judged")
    if counts.unconfirmed:
        said.append(f"{counts.unconfirmed} not confirmed")
    mended = f"; {counts.mended} mended, {counts.faulty - counts.mended} not mended" if is_mending else ""
    return f"{counts.tiles} tile{'' if counts.tiles == 1 else 's'}: {', '.join(said)}{mended}"


def require_packages() -> None:
    """Refused where one isn't installed."""
    lacking = [name for name in _NEEDED if importlib.util.find_spec(name) is None]
    if lacking:
        packages = ", ".join(_NEEDED[name] for name in lacking)
        raise Refused(f"not installed: {', '.join(lacking)} (Debian's packages {packages})")


def say(text: str) -> None:
    """A line on standard error, where somebody reads it. The status is the same where nobody does."""
    with contextlib.suppress(OSError):
        print(text, file=sys.stderr, flush=True)


def go(said: argparse.Namespace) -> Status:
    """Does the run, and says what came of it."""
    require_packages()
    # (it needs them)
    from .run import Run

    run = Run(settings_of(said))
    counts = run.go()
    say(f"{summary(counts, said.all, said.mend is not None)}; see {os.path.join(run.settings.output, REPORT)}")
    if counts.failed or counts.unconfirmed:
        return Status.UNJUDGED
    return Status.FAULTY if has_too_many(counts, said) else Status.VALID


def has_too_many(counts: Counts, said: argparse.Namespace) -> bool:
    """Whether more tiles have a fault that stays than the words allow: none, where they allow no number."""
    staying = counts.faulty - counts.mended
    if said.max_faults is None and said.max_rate is None:
        return staying > 0
    is_many = said.max_faults is not None and staying > said.max_faults
    return is_many or (said.max_rate is not None and staying > said.max_rate * counts.tiles)


def interrupt(*_: Any) -> None:
    raise KeyboardInterrupt


def _joined(words: List[str]) -> List[str]:
    """The words, with a box that begins with a minus taken for what it is, and not for an option."""
    joined: List[str] = []
    for word in words:
        if joined and joined[-1] == "--bbox" and re.match(r"-[\d.]", word):
            joined[-1] = f"--bbox={word}"
        else:
            joined.append(word)
    return joined


def main(words: Optional[List[str]] = None) -> int:
    """Runs the command and returns its exit status."""
    said = arguments().parse_args(_joined(sys.argv[1:] if words is None else words))
    have_errors()
    signal.signal(signal.SIGTERM, interrupt)
    # (of a call of Dask's that an interrupt ends)
    warnings.filterwarnings("ignore", "coroutine .* was never awaited", RuntimeWarning)
    try:
        return go(said)
    except (Ending, OSError) as error:
        ending = ending_of(error) if isinstance(error, OSError) else error
        status, reason = ending.status, str(ending)
    except MemoryError:
        status, reason = Status.UNFINISHED, "memory was refused; the same words go on with it"
    except KeyboardInterrupt:
        status, reason = Status.UNFINISHED, "interrupted; the same words go on with it"
    except Exception:
        # (Python's own status for it is that of a fault)
        status, reason = Status.BROKEN, f"this is a mistake in the program: please report it\n{traceback.format_exc()}"
    say(f"mvtgate-planet: {reason}")
    return status


if __name__ == "__main__":
    sys.exit(main())
