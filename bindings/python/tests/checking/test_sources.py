"""Where mvtgate-check finds tiles: files, folders, MBTiles files, standard input; and what it says where there are none."""
from __future__ import annotations

import gc
import gzip
import os
import pathlib
import shutil
import sqlite3
import subprocess
import xml.etree.ElementTree as ElementTree
import zlib
from typing import Any, Dict, Iterator, List, Tuple

import pytest

from checking.runs import CROSSING, EMPTY, LONG, PNG, POINT, command, environment, json_lines, last_line, mbtiles, run
from mvtgate._files import LIMIT
from mvtgate.checking import sources
from mvtgate.checking.answers import Answer
from mvtgate.checking.judging import Settings, verdicts_of
from mvtgate.checking.pieces import Files, Piece
from planet.helpers.archives import write_archive
from planet.helpers.runs import Tile

FAULT = CROSSING.read_bytes()
VALID = POINT.read_bytes()


def answers_of(piece: Piece) -> List[Answer]:
    return [it for verdict in verdicts_of(piece, Settings()) for it in verdict.answers()]


def put(path: pathlib.Path, content: bytes) -> pathlib.Path:
    path.parent.mkdir(parents=True, exist_ok=True)
    path.write_bytes(content)
    return path


def files_of(out: str) -> List[str]:
    return [it["file"] for it in json_lines(out)]


def test_folders_are_walked(tmp_path: pathlib.Path) -> None:
    for name in ("0/0/0.pbf", "0/1.mvt", "b.mvt"):
        put(tmp_path / name, VALID)
    put(tmp_path / "0/2.pbf", gzip.compress(FAULT))
    put(tmp_path / "0/3.mvt.gz", gzip.compress(FAULT))
    put(tmp_path / "0/4.pbf.gz", zlib.compress(FAULT))
    put(tmp_path / "notes.txt", b"no tile")
    said = run("--json", tmp_path)
    assert said.returncode == 1
    assert files_of(said.stdout) == [str(tmp_path / it) for it in ("0/2.pbf", "0/3.mvt.gz", "0/4.pbf.gz")]
    assert last_line(said) == "6 tiles: 3 valid, 3 with a fault"


def test_zstandard(tmp_path: pathlib.Path) -> None:
    zstandard: Any = pytest.importorskip("zstandard")
    for name, content in (("0.mvt.zst", VALID), ("1.pbf.zst", FAULT), ("2.mvt", FAULT)):
        put(tmp_path / name, zstandard.ZstdCompressor().compress(content))
    said = run("--json", tmp_path)
    assert said.returncode == 1 and files_of(said.stdout) == [str(tmp_path / "1.pbf.zst"), str(tmp_path / "2.mvt")]


def test_zstandard_without_the_module(tmp_path: pathlib.Path) -> None:
    put(tmp_path / "a.mvt.zst", b"\x28\xb5\x2f\xfd" + VALID)
    put(tmp_path / "modules/zstandard.py", b"raise ImportError")
    words = command(tmp_path / "a.mvt.zst")
    said = subprocess.run(words, env=environment(PYTHONPATH=f"{tmp_path}/modules:{environment()['PYTHONPATH']}"), capture_output=True, text=True)
    reason = "it is packed by Zstandard, and zstandard isn't installed (Debian's package python3-zstandard)"
    assert said.returncode == 3 and said.stderr.startswith(f"mvtgate-check: {tmp_path}/a.mvt.zst: {reason}\n")


def test_order_of_folders(tmp_path: pathlib.Path) -> None:
    names = [f"{it}/{it}/tile.mvt" for it in (7, 3, 9, 1, 8, 2, 5)]
    for name in names:
        put(tmp_path / name, FAULT)
    assert files_of(run("--json", tmp_path).stdout) == [str(tmp_path / it) for it in sorted(names)]


def test_links(tmp_path: pathlib.Path) -> None:
    """A link to a file is followed, one to a folder isn't, and one to nothing is an error."""
    put(tmp_path / "elsewhere/tile.mvt", FAULT)
    folder = tmp_path / "folder"
    folder.mkdir()
    (folder / "a.mvt").symlink_to(tmp_path / "elsewhere/tile.mvt")
    (folder / "b.mvt").symlink_to("nowhere")
    (folder / "c.mvt").symlink_to("c.mvt")
    (folder / "d").symlink_to(tmp_path / "elsewhere")
    os.mkfifo(folder / "e.mvt")
    said = run("--json", folder, timeout=LONG)
    told = {pathlib.Path(it["file"]).name: it.get("error") for it in json_lines(said.stdout)}
    assert told == {"a.mvt": None, "b.mvt": "No such file or directory", "c.mvt": "Too many levels of symbolic links", "e.mvt": "it is no regular file"}
    assert said.returncode == 3
    # (a link that is named is followed)
    assert files_of(run("--json", folder / "d").stdout) == [str(folder / "d/tile.mvt")]


@pytest.fixture
def deep_folder(tmp_path: pathlib.Path) -> Iterator[pathlib.Path]:
    """A tile below more folders than functions may call each other."""
    where = os.getcwd()
    os.chdir(tmp_path)
    for _ in range(1500):
        os.mkdir("d")
        os.chdir("d")
    pathlib.Path("tile.mvt").write_bytes(FAULT)
    os.chdir(where)
    yield tmp_path
    # (Python's own way to remove a folder can't)
    subprocess.run(["rm", "-rf", tmp_path / "d"], check=True)


def test_deep_folders(deep_folder: pathlib.Path) -> None:
    said = run("--json", deep_folder)
    assert said.returncode == 1 and files_of(said.stdout) == [f"{deep_folder}/{'d/' * 1500}tile.mvt"]


def test_folder_without_tiles(tmp_path: pathlib.Path) -> None:
    """It is told, and the others are judged."""
    said = run(tmp_path, POINT)
    reason = "the folder has no file that ends with .mvt, .pbf, .mvt.gz, .pbf.gz, .mvt.zst, .pbf.zst, .mbtiles, .pmtiles"
    assert (said.returncode, said.stdout) == (3, "")
    assert said.stderr == f"mvtgate-check: {tmp_path}: {reason}\n2 tiles: 1 valid, 0 with a fault, 1 not judged\n"


def test_broken_files(tmp_path: pathlib.Path) -> None:
    packed = gzip.compress(VALID)
    broken = {"cut": packed[:-5], "sum": packed[:-8] + bytes(8), "more": packed + b"more", "no_gzip": b"\x1f\x8b", "zlib": zlib.compress(VALID)[:-1], "none": None}
    for name, content in broken.items():
        if content is not None:
            put(tmp_path / name, content)
    said = run(POINT, *(tmp_path / it for it in broken))
    assert (said.returncode, said.stdout) == (3, "")
    assert last_line(said) == "7 tiles: 1 valid, 0 with a fault, 6 not judged"
    assert [it.split(": ")[:2] for it in said.stderr.splitlines()[:-1]] == [["mvtgate-check", str(tmp_path / it)] for it in broken]
    lines = json_lines(run("--json", CROSSING, *(tmp_path / it for it in broken)).stdout)
    assert [set(it) for it in lines] == [{"file", "fault", "sentence"}] + 6 * [{"file", "error"}]


def test_empty_files(tmp_path: pathlib.Path) -> None:
    """A tile of no bytes is valid, and here most likely a mistake."""
    put(tmp_path / "a.mvt", b"")
    put(tmp_path / "b.mvt.gz", gzip.compress(b""))
    said = run(tmp_path, "-", stdin=subprocess.DEVNULL)
    assert (said.returncode, said.stdout) == (3, "")
    unpacked = EMPTY.replace("it is empty", "it is empty when it is unpacked")
    assert [it.partition(": ")[2] for it in said.stderr.splitlines()[:3]] == [f"{tmp_path}/a.mvt: {EMPTY}", f"{tmp_path}/b.mvt.gz: {unpacked}", f"standard input: {EMPTY}"]
    said = run("--allow-empty", tmp_path, "-", stdin=subprocess.DEVNULL)
    assert (said.returncode, said.stdout, said.stderr) == (0, "", "3 tiles: 3 valid, 0 with a fault\n")


@pytest.mark.parametrize("stored", [FAULT, gzip.compress(FAULT), zlib.compress(FAULT)], ids=["bare", "gzip", "zlib"])
def test_standard_input(stored: bytes) -> None:
    said = subprocess.run(command("-"), env=environment(), input=stored, capture_output=True)
    assert said.returncode == 1 and said.stdout.startswith(b"standard input: 504: In feature 0 of layer 0, ")
    said = subprocess.run(command("--json", "-", "--jobs", "2"), env=environment(), input=stored, capture_output=True)
    assert json_lines(said.stdout.decode())[0]["file"] == "-"


def test_pipes() -> None:
    """`<(gunzip -c ..)` of bash is a pipe with a name."""
    for jobs in ("1", "2"):
        words = 'exec "$@" --json <(cat "$0")'
        said = subprocess.run(["bash", "-c", words, CROSSING, *command("--jobs", jobs)], env=environment(), capture_output=True, text=True, timeout=LONG)
        assert said.returncode == 1 and json_lines(said.stdout)[0]["fault"]["code"] == 504


def test_no_standard_input() -> None:
    said = subprocess.run(["bash", "-c", '"$@" <&-', "bash", *command("-")], env=environment(), capture_output=True, text=True)
    assert said.returncode == 3 and said.stderr.startswith("mvtgate-check: standard input: it is closed\n")


def test_limit(tmp_path: pathlib.Path) -> None:
    """A file, and a packed file's content, have at most as many bytes as the program takes."""
    path = tmp_path / "tile.mvt"
    for size, is_read in ((LIMIT, True), (LIMIT + 1, False)):
        for content in (bytes(size), gzip.compress(bytes(size), 1)):
            path.write_bytes(content)
            [answer] = answers_of(Files([str(path)]))
            assert (answer.error is None) is is_read
            assert is_read or answer.error == f"it is larger than {LIMIT} bytes"
    path.write_bytes(gzip.compress(os.urandom(LIMIT), 0))
    [answer] = answers_of(Files([str(path)]))
    assert path.stat().st_size > LIMIT and answer.error == f"it is larger than {LIMIT} bytes"


@pytest.fixture
def archive(tmp_path: pathlib.Path) -> pathlib.Path:
    tiles: Dict[Tuple[int, int, int], Any] = {
        (0, 0, 0): VALID,
        (1, 0, 1): gzip.compress(FAULT),
        (5, 3, 30): zlib.compress(VALID),
        (5, 3, 31): FAULT,
        (5, 4, 0): PNG,
        (5, 4, 1): b"",
        (5, 4, 2): None,
        (5, 4, 3): gzip.compress(VALID)[:-1],
    }
    return mbtiles(tmp_path / "a.mbtiles", tiles)


def test_mbtiles(archive: pathlib.Path) -> None:
    """Tiles have the names z/x/y, with rows from the north."""
    said = run("--json", "--confirm", archive)
    told = {it["tile"]: it.get("error") or it["fault"]["code"] for it in json_lines(said.stdout)}
    assert told["1/0/1"] == told["5/3/31"] == 504 and 101 <= told["5/4/0"] <= 111
    errors = {"5/4/1": EMPTY, "5/4/2": "there are no bytes in the database (NULL)", "5/4/3": "the gzip stream is cut"}
    assert {key: it for key, it in told.items() if isinstance(it, str)} == errors and len(told) == 6
    assert all(it["file"] == str(archive) for it in json_lines(said.stdout))
    assert said.returncode == 3 and last_line(said) == "8 tiles: 2 valid, 3 with a fault, 3 not judged"
    lines = run(archive).stdout.splitlines()
    assert [it.split(": ")[0] for it in lines] == [f"{archive} {place}" for place in ("1/0/1", "5/4/0", "5/3/31")] or len(lines) == 3


def test_mbtiles_by_their_bytes_or_ending(archive: pathlib.Path, tmp_path: pathlib.Path) -> None:
    """A database is known by its bytes where it is named, and by its ending in a folder."""
    wanted = [it["tile"] for it in json_lines(run("--json", archive).stdout)]
    other = shutil.copy(archive, tmp_path / "planet.db")
    for words in ([other], [tmp_path]):
        assert [it["tile"] for it in json_lines(run("--json", *words).stdout)] == wanted


def test_many_tiles_of_mbtiles(tmp_path: pathlib.Path) -> None:
    """More than a piece has, and a column that has more than one."""
    places = [(9, column, row) for column in range(4) for row in range(300)]
    path = mbtiles(tmp_path / "a.mbtiles", {place: FAULT if place[2] % 100 == 0 else VALID for place in places})
    for jobs in (1, 3):
        said = run("--json", "--jobs", jobs, path)
        assert last_line(said) == "1200 tiles: 1188 valid, 12 with a fault"
        assert {it["tile"] for it in json_lines(said.stdout)} == {f"9/{column}/{row}" for column in range(4) for row in (0, 100, 200)}


@pytest.mark.parametrize("ending", ["mbtiles", "pmtiles"])
def test_many_archives(tmp_path: pathlib.Path, ending: str) -> None:
    """Those that are done with are closed at once, so that a folder may have more of them than files may be open."""
    for number in range(20):
        path = tmp_path / f"{number}.{ending}"
        mbtiles(path, {(0, 0, 0): FAULT}) if ending == "mbtiles" else write_archive(path, [Tile(0, 0, 0, FAULT)])
    gc.disable()
    try:
        before = len(os.listdir("/proc/self/fd"))
        assert [it.fault and it.fault.code for piece in sources.pieces_of([str(tmp_path)]) for it in answers_of(piece)] == [504] * 20
        # (a few that may have more pieces are kept)
        assert len(os.listdir("/proc/self/fd")) <= before + 4
    finally:
        gc.enable()


def broken_archives(folder: pathlib.Path) -> Iterator[Tuple[pathlib.Path, str]]:
    """Files that hold no tiles, with the reason."""
    yield put(folder / "none.mbtiles", b""), "no such table: tiles"
    yield put(folder / "text.mbtiles", b"no database at all"), "file is not a database"
    yield folder / "missing.mbtiles", "there is no such file or folder"
    yield mbtiles(folder / "without.mbtiles", {}), "it has no tiles"
    yield mbtiles(folder / "index.mbtiles", {(0, 0, 0): VALID}, "SELECT 1"), "CREATE UNIQUE INDEX tile_index ON tiles (zoom_level, tile_column, tile_row)"
    whole = mbtiles(folder / "whole.mbtiles", {(9, 1, row): VALID for row in range(300)}).read_bytes()
    yield put(folder / "cut.mbtiles", whole[: len(whole) // 2]), "database disk image is malformed"


def test_broken_mbtiles(tmp_path: pathlib.Path) -> None:
    for path, reason in broken_archives(tmp_path):
        said = run("--json", path, POINT)
        told = json_lines(said.stdout)
        assert said.returncode == 3 and [(it["file"], set(it)) for it in told] == [(str(path), {"file", "error"})], path
        assert reason in told[0]["error"] and str(path) not in told[0]["error"]


def test_mbtiles_that_change(tmp_path: pathlib.Path) -> None:
    """What isn't judged because the file was changed is told, and no tile is judged from two states of it."""
    path = mbtiles(tmp_path / "a.mbtiles", {(9, column, 0): VALID for column in range(1000)})
    pieces = sources.pieces_of([str(path)])
    first = next(pieces)
    assert all(it.is_valid for it in answers_of(first)) and 1 < first.size < 900
    with sqlite3.connect(path) as database:
        database.execute("DELETE FROM tiles WHERE tile_column = 900")
    database.close()
    errors = [it.error for piece in pieces for it in answers_of(piece) if not it.is_valid]
    assert len(errors) == 1 and errors[0] is not None and "when the run began" in errors[0]


def test_names_on_one_line(tmp_path: pathlib.Path) -> None:
    """Line ends, marks that turn the text's direction, bytes that are no UTF-8."""
    shown = {b"a\nb.mvt": r"a\nb.mvt", b"\xff.mvt": r"\xff.mvt", "c\u202e.mvt".encode(): r"c\u202e.mvt", "ä ö.mvt".encode(): "ä ö.mvt", b"\x1b[2J.mvt": r"\x1b[2J.mvt"}
    for name in shown:
        with open(os.fsencode(tmp_path) + b"/" + name, "wb") as file:
            file.write(FAULT)
    said = run(tmp_path)
    assert said.returncode == 1 and {it.split(": ")[0] for it in said.stdout.splitlines()} == {f"{tmp_path}/{it}" for it in shown.values()}
    # (as JSON they are texts that each reader takes: those of bytes that are no text have the bytes' numbers)
    files = files_of(run("--json", tmp_path).stdout)
    assert {it.encode() for it in files} == {os.fsencode(tmp_path) + b"/" + it.replace(b"\xff", rb"\xff") for it in shown}
    said = run(*(os.fsencode(tmp_path) + b"/" + it for it in shown), *(os.fsencode(tmp_path) + b"/no" + it for it in shown))
    assert said.returncode == 3 and len(said.stdout.splitlines()) == len(shown)
    assert {it.split(": ")[1] for it in said.stderr.splitlines() if it.startswith("mvtgate-check: ")} == {f"{tmp_path}/no{it}" for it in shown.values()}


def test_reasons_on_one_line(tmp_path: pathlib.Path) -> None:
    """What SQLite quotes of a broken file: bytes that no terminal and no XML is to get, or that are no text."""
    for name, table in (("a", b"z\x1b[31mz\x01"), ("b", b"z\xff")):
        path = mbtiles(tmp_path / f"{name}.mbtiles", {(1, 0, 0): FAULT})
        with sqlite3.connect(path) as database:
            database.execute("PRAGMA writable_schema = ON")
            statement = b"CREATE TABLE " + table + b"(x"
            database.execute("UPDATE sqlite_master SET name = CAST(? AS TEXT), sql = CAST(? AS TEXT) WHERE type = 'index'", (table, statement))
        database.close()
    put(tmp_path / "c.mvt", FAULT)
    said = run("--junit", tmp_path / "report.xml", tmp_path)
    assert said.returncode == 3 and f"{tmp_path}/c.mvt: 504: " in said.stdout and "Traceback" not in said.stderr, said.stderr
    # (all but the ends of lines)
    assert all(it.isprintable() for it in said.stderr.splitlines()) and f"{tmp_path}/a.mbtiles: " in said.stderr and f"{tmp_path}/b.mbtiles: " in said.stderr
    [suite] = ElementTree.parse(tmp_path / "report.xml").getroot()
    assert (suite.get("tests"), suite.get("errors"), suite.get("failures")) == ("3", "2", "1")


def test_names_in_another_encoding(tmp_path: pathlib.Path) -> None:
    put(tmp_path / "ä.mvt", FAULT)
    said = subprocess.run(command(tmp_path), env=environment(PYTHONIOENCODING="ascii"), capture_output=True, text=True)
    assert said.returncode == 1 and said.stdout.startswith(f"{tmp_path}/\\xe4.mvt: 504: ")
