"""rows.csv, and the table that it is made of."""
from __future__ import annotations

import csv
import io
import pathlib

import pytest

from mvtgate.planet.endings import Unfinished
from mvtgate.planet.records import Place
from mvtgate.planet.rows import Rows
from mvtgate.planet.temporary import Temporary

# names of layers with what a line of such a file is made of
NAMES = ["water", "a,b", 'a "b"', "a\nb", "a\rb", "a\r\nb", "\r", "ä\u2028b", ""]


def test_names_of_layers(tmp_path: pathlib.Path) -> None:
    """Each is read as it was, and each line ends as it does without them."""
    rows = Rows()
    for number, name in enumerate(NAMES):
        rows.add(Place(0, 3, number, 0), name, number, 504)
    rows.write(str(tmp_path), ["a.mbtiles"])
    text = (tmp_path / "rows.csv").read_bytes().decode()
    head, *lines = csv.reader(io.StringIO(text, newline=""))
    assert head[1] == "layer" and sorted(line[1] for line in lines) == sorted(NAMES)
    assert text.count("\n") == 1 + len(NAMES) + sum(it.count("\n") for it in NAMES)


def test_no_room_for_a_temporary_file() -> None:
    """The run can go on when there is some."""
    table = Temporary("CREATE TABLE it (text TEXT)")
    table.execute("PRAGMA max_page_count = 3")
    with pytest.raises(Unfinished, match="temporary file .*full"):
        for _ in range(10):
            table.execute("INSERT INTO it VALUES (?)", ("x" * 4000,))
    table.close()
