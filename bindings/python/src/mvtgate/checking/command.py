"""mvtgate-check FILE..: judges Mapbox vector tiles in files, folders, MBTiles files and PMTiles archives.

A line on standard output for each tile that isn't valid, or by --all for each of its faults, and a summary on standard error.
Tiles may be packed by gzip, zlib or Zstandard. Exit status 0: all tiles are valid. 1: some have a fault, and all were judged. 2: the
words are no call. 3: something couldn't be read, judged, confirmed or written; standard error says what. 130: it was interrupted.
141: the reader of its lines has gone.
"""
from __future__ import annotations

import argparse
import contextlib
import io
import os
import signal
import sys
import traceback
from typing import Generator, Iterator, List, Optional

import mvtgate

from .._files import is_named_as_tiles
from .answers import Verdict
from .counts import Counts
from .judging import Settings, verdicts_of
from .geojson import GeoJson
from .junit import Junit
from .lines import PROGRAM, Lines, have_errors, tell
from .mending import Copies, NoFolder
from .names import INPUT, on_one_line
from .processes import WorkerGone, verdicts_by
from .progress import Bar, tqdm_of_terminal
from .report import Report, naming
from .sarif import Sarif
from .sources import count, pieces_of

VALID, FAULTY, NOT_DONE, READER_GONE = 0, 1, 3, 141
_MOST_JOBS = 256
_PROFILES = {it.name.lower(): it for it in mvtgate.Profile}


def jobs(word: str) -> int:
    """A number of processes; 0 stands for one for each processor."""
    number = int(word)
    if not 0 <= number <= _MOST_JOBS:
        raise argparse.ArgumentTypeError(f"it is at least 0 and at most {_MOST_JOBS}")
    return number or len(os.sched_getaffinity(0))


def arguments() -> argparse.ArgumentParser:
    """The words that the command takes."""
    first, _, rest = (__doc__ or "").partition("\n\n")
    # (an option is never shortened: another one may begin so one day)
    reader = argparse.ArgumentParser(prog=PROGRAM, description=first.replace(f"{PROGRAM} FILE..: j", "J"), epilog=rest, allow_abbrev=False)
    reader.add_argument("file", nargs="*", metavar="FILE", help="a tile, a folder of tiles, an MBTiles file, a PMTiles archive, or - for standard input")
    reader.add_argument("--profile", choices=_PROFILES, default="polygon", help="what polygons are held against (polygon)")
    reader.add_argument("--all", action="store_true", help="name each faulty layer and feature of a tile, and not the first one alone")
    reader.add_argument("--quick", action="store_true", help="answer in bounded time by each profile: perhaps a later fault of the same feature")
    either = reader.add_mutually_exclusive_group()
    either.add_argument("--json", action="store_true", help="write JSON lines, also for tiles that couldn't be judged")
    either.add_argument("--quiet", action="store_true", help="write nothing but errors")
    reader.add_argument("--valid", action="store_true", help="write a line for each valid tile, too")
    reader.add_argument("--explain", action="store_true", help="say for each fault what causes it and what to do")
    reader.add_argument("--confirm", action="store_true", help="hand each fault to the separate checker, too")
    reader.add_argument("--allow-empty", action="store_true", help="take a tile of no bytes for a valid one, and not for an error")
    reader.add_argument("--jobs", type=jobs, default=1, metavar="N", help="judge by N processes; 0: one for each processor (1)")
    reader.add_argument("--mend", metavar="FOLDER", help="write mended copies of files whose polygons break the rules into a new folder")
    reader.add_argument("--drop", action="store_true", help="with --mend, leave out features that can't be mended")
    reader.add_argument("--junit", metavar="REPORT", help="write a report for CI servers: JUnit's XML")
    reader.add_argument("--sarif", metavar="REPORT", help="write a report for code hosts and editors: SARIF 2.1.0")
    reader.add_argument("--geojson", metavar="REPORT", help="write a report for maps: a point for each fault of a tile named z/x/y")
    reader.add_argument("--version", action="version", version=f"{PROGRAM} {mvtgate.version()}")
    return reader


def _wrong_report(said: argparse.Namespace) -> Optional[str]:
    """Which report would be written over tiles, since its name was left out, say, or over another report. None where none would."""
    taken = {os.path.realpath(it) for it in said.file}
    for option in ("--junit", "--sarif", "--geojson"):
        path: Optional[str] = getattr(said, option[2:])
        if path is None:
            continue
        # (devices may be named again)
        there = os.path.realpath(path)
        if is_named_as_tiles(path) or (there in taken and (os.path.isfile(there) or not os.path.exists(there))):
            return f"{option} takes the name of a report, and {on_one_line(path)} is another file's"
        taken.add(there)
    return None


def read_words(words: List[str]) -> argparse.Namespace:
    """What the words say. Files and options may stand in any order, and after `--` there are only files."""
    reader = arguments()
    end = words.index("--") if "--" in words else len(words)
    said = reader.parse_intermixed_args(words[:end])
    said.file += words[end + 1 :]
    if not said.file:
        reader.error("no FILE is named")
    wrong = _wrong_report(said)
    if wrong is not None:
        reader.error(wrong)
    if said.drop and said.mend is None:
        reader.error("--drop is for --mend")
    if said.mend is not None and INPUT in said.file:
        reader.error("--mend takes files and folders; mvtgate mend takes standard input")
    return said


def _verdicts(said: argparse.Namespace) -> Generator[Verdict, None, None]:
    copies = None if said.mend is None else Copies.of(said.mend, said.file, said.drop)
    settings = Settings(_PROFILES[said.profile], said.confirm, said.allow_empty, said.all, said.quick, copies, said.geojson is not None)
    pieces = pieces_of(said.file)
    if said.jobs > 1:
        yield from verdicts_by(said.jobs, pieces, settings)
        return
    for piece in pieces:
        yield from verdicts_of(piece, settings)


def _reports(said: argparse.Namespace, counts: Counts) -> Iterator[Report]:
    """The reports that are asked for."""
    if said.junit is not None:
        yield Junit(said.junit, counts, said.profile, said.all)
    if said.sarif is not None:
        yield Sarif(said.sarif, counts, said.profile)
    if said.geojson is not None:
        yield GeoJson(said.geojson, counts)


def _bar(said: argparse.Namespace) -> Bar:
    tqdm = None if said.quiet else tqdm_of_terminal()
    return Bar(tqdm, count(said.file) if tqdm else 0)


def _judge(said: argparse.Namespace, counts: Counts) -> List[str]:
    """Judges all tiles, and writes what is asked for. What is said beside the summary is returned."""
    with contextlib.ExitStack() as stack:
        reports = [stack.enter_context(it) for it in _reports(said, counts)]
        bar = stack.enter_context(contextlib.closing(_bar(said)))
        lines = Lines(bar, said.json, said.explain, said.valid, said.quiet)
        verdicts = stack.enter_context(contextlib.closing(_verdicts(said)))
        for answer in (it for verdict in verdicts for it in verdict.answers()):
            counts.add(answer)
            bar.add(not answer.is_further)
            for report in reports:
                report.write(answer)
            with naming("standard output"):
                lines.write(answer)
    return [line for report in reports for line in report.words()]


def _run(said: argparse.Namespace) -> int:
    counts = Counts(said.all)
    more = _judge(said, counts)
    if not said.quiet:
        with naming("standard error"):
            print("\n".join([*more, *counts.summary()]), file=sys.stderr)
    if counts.failed or counts.unconfirmed:
        return NOT_DONE
    return FAULTY if counts.staying else VALID


def _prepare() -> None:
    have_errors()
    # (names of files that the terminal's encoding hasn't; and each line is there as soon as it is known)
    for stream in (sys.stdout, sys.stderr):
        if isinstance(stream, io.TextIOWrapper):
            stream.reconfigure(errors="backslashreplace", line_buffering=True)
    # (so ctrl-C ends it at once, even in the middle of a tile that takes long)
    if signal.getsignal(signal.SIGINT) is signal.default_int_handler:
        signal.signal(signal.SIGINT, signal.SIG_DFL)


def _let_go() -> None:
    """What is left in buffers goes nowhere."""
    nowhere = os.open(os.devnull, os.O_WRONLY)
    for end in (1, 2):
        os.dup2(nowhere, end)


def _fail(reason: str) -> int:
    with contextlib.suppress(OSError):
        tell(reason)
    _let_go()
    return NOT_DONE


def main(words: Optional[List[str]] = None) -> int:
    """Runs the command and returns its exit status."""
    said = read_words(sys.argv[1:] if words is None else words)
    _prepare()
    try:
        return _run(said)
    except BrokenPipeError:
        _let_go()
        return READER_GONE
    except MemoryError:
        return _fail("out of memory")
    except (WorkerGone, NoFolder) as error:
        return _fail(str(error))
    except OSError as error:
        return _fail(f"{error.filename}: {error.strerror}" if error.filename else str(error))
    except Exception:
        # (Python's own status for it is that of a fault)
        return _fail(f"this is a mistake in the program: please report it\n{traceback.format_exc()}")


if __name__ == "__main__":
    sys.exit(main())
