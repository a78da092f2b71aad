"""The page mends: what is shown of a mended tile, and what is saved, beside what the native library makes of it."""
from __future__ import annotations

import gzip
import json
import pathlib
import sys
import time
import zipfile
import zlib
from typing import Callable, Dict, List, Optional

import pytest

from browsers import Browser
from conftest import TOP
from page import TIME, Page
from samples import NAMES, PROFILES, WORDS, path_of
from wire import POLYGON, feature, layer, point, tile_of_size

sys.path.append(str(TOP / "bindings/python/src"))
import mvtgate

DOWN, END = "\ue015", "\ue010"  # keys, in WebDriver
VALID = "The tile is mended, and the judge finds it valid: "
CROSSING = feature(POLYGON, [9, 0, 16, 26, 20, 15, 0, 20, 19, 19, 15])
# a MoveTo of two positions: what it draws isn't known
TWO_BEGINNINGS = feature(POLYGON, [17, 0, 0, 10, 10, 15])
IS_MENDED = """
const { textContent } = document.getElementById('mend-summary');
return textContent && textContent !== 'The tile is being mended.' && document.getElementById('mend').getAttribute('aria-busy') === 'false' && textContent"""


def native(tile: bytes, profile: str = "polygon", drop: bool = False) -> Optional[mvtgate.Mended]:
    """What the library makes of a tile; None where it is refused."""
    try:
        return mvtgate.mend(tile, mvtgate.Profile[profile.upper()], drop=drop)
    except mvtgate.Refused:
        return None


def mended(page: Page) -> str:
    """Mends the tile that is shown, and returns what is said."""
    page.click("#mend-tile")
    return str(page.until(IS_MENDED))


def saved(browser: Browser, name: str, act: Callable[[], None]) -> bytes:
    """The file of this name that the browser saves where something is done."""
    path = browser.downloads / name
    path.unlink(missing_ok=True)
    act()
    end = time.monotonic() + TIME
    while time.monotonic() < end:
        # (a browser may make the file before it writes it)
        if path.exists() and path.stat().st_size and not path.with_name(name + ".part").exists():
            return path.read_bytes()
        time.sleep(0.05)
    raise AssertionError(f"{name} wasn't saved: {[it.name for it in browser.downloads.iterdir()]}")


def written(folder: pathlib.Path, name: str, content: bytes) -> pathlib.Path:
    path = folder / name
    path.parent.mkdir(parents=True, exist_ok=True)
    path.write_bytes(content)
    return path


def roles(page: Page) -> Dict[str, int]:
    """How many elements of each kind the picture has."""
    return {it: page.count(f"#mend-picture svg [data-role={it}]") for it in ("cut", "added", "kept", "before", "after")}


def test_mends(page_in_each: Page) -> None:
    page = page_in_each
    page.choose(path_of("crossing_edges"))
    assert page.is_visible("mend") and not page.is_visible("mend-body")
    assert mended(page) == VALID + "1 feature mended. All else is byte for byte as it was."
    wanted = native(path_of("crossing_edges").read_bytes())
    assert wanted is not None and len(wanted.changed) == 1
    change = wanted.changed[0]
    assert change.vertices is not None
    assert page.texts("#changes .fault-title") == ["Feature 0 of layer 0: mended"]
    assert page.texts("#change-facts dt") == ["Area", "Polygons", "Vertices", "Crossings that were rounded to a position", "Corners that were cut"]
    assert page.texts("#change-facts dd")[2:] == [f"{change.vertices[0]}, now {change.vertices[1]}", str(change.crossings), str(change.cuts)]
    found = roles(page)
    assert all(found.values()), found
    assert page.verdict == "Not valid: edges that meet"  # (of the tile itself)
    assert saved(page.browser, "crossing_edges.mended.mvt", lambda: page.click("#save-mended")) == wanted.tile


@pytest.mark.parametrize("profile", PROFILES)
def test_all_samples(page: Page, profile: str) -> None:
    """Each that the library mends is mended, and is drawn; of the others the page says the fault for which they are refused."""
    page.use_profile(profile)
    count = 0
    for name in NAMES:
        tile = path_of(name).read_bytes()
        fault = mvtgate.check(tile, mvtgate.Profile[profile.upper()])
        if fault is None or fault.code not in (402, 406) and fault.code < 501:
            continue
        page.choose(path_of(name))
        page.click("#list li:last-child")
        page.until_shown(f"{name}.mvt")
        said, wanted = mended(page), native(tile, profile)
        if wanted is None:
            assert said.startswith("The tile can't be mended, for this fault: ") and not page.is_visible("mend-body")
            continue
        count += 1
        assert said.startswith(VALID) and len(page.texts("#changes li")) == len(wanted.changed)
        assert page.count("#mend-picture svg") >= 1, name
    assert count > 15


@pytest.mark.parametrize("name", ["truncated", "version_one", "odd_tags", "point"])
def test_what_is_never_mended(page: Page, name: str) -> None:
    page.choose(path_of("crossing_edges"))
    assert page.is_visible("mend")
    page.choose(path_of(name))
    page.click("#list li:last-child")
    page.until_shown(f"{name}.mvt")
    assert not page.is_visible("mend")


def test_features_that_are_left_out(page_in_each: Page, tmp_path: pathlib.Path) -> None:
    page = page_in_each
    tile = layer("a", [point(1, 1), TWO_BEGINNINGS, CROSSING])
    page.choose(written(tmp_path, "tile.mvt", tile))
    sentence = WORDS["faults"]["402"]["sentence"]
    assert mended(page).startswith("The tile can't be mended, for this fault: " + sentence.split("{")[0])
    assert page.text("mend-summary").endswith("The feature may be left out.") and not page.is_visible("mend-body")
    page.click("#drop")
    assert mended(page) == VALID + "1 feature mended and 1 feature left out. All else is byte for byte as it was."
    assert page.texts("#changes .fault-title") == ["Feature 1 of layer 0: left out", "Feature 2 of layer 0: mended"]
    assert page.texts("#change-facts dd") == ["it couldn't be mended and is left out"]
    page.press("changes", DOWN)
    page.until(IS_MENDED)
    assert page.texts("#change-facts dt")[0] == "Area" and all(roles(page).values())
    wanted = native(tile, drop=True)
    assert wanted is not None
    assert saved(page.browser, "tile.mended.mvt", lambda: page.click("#save-mended")) == wanted.tile


def test_another_tile_and_another_profile(page: Page) -> None:
    """What was mended is gone where something else is shown."""
    page.choose(path_of("crossing_edges"), path_of("hole_in_hole"))
    mended(page)
    page.click("#list li:last-child")
    page.until_shown("hole_in_hole.mvt")
    assert page.is_visible("mend") and not page.is_visible("mend-body") and page.text("mend-summary") == ""
    mended(page)
    page.use_profile("feature")
    page.until_done()
    assert page.is_visible("mend") and not page.is_visible("mend-body")
    mended(page)
    page.choose(path_of("polygon_on_polygon"))
    assert page.verdict.startswith("Not valid")
    page.use_profile("polygon")
    page.until("return !document.getElementById('mend').checkVisibility()")


def test_a_tile_that_is_left_while_it_is_mended(page: Page) -> None:
    """The panel of the next tile isn't busy: screen readers would wait for it."""
    page.choose(path_of("crossing_edges"), path_of("hole_in_hole"))
    page.script("document.getElementById('mend-tile').click(); document.querySelector('#list li:last-child').click()")
    page.until_shown("hole_in_hole.mvt")
    assert page.is_visible("mend") and page.text("mend-summary") == ""
    assert page.script("return document.getElementById('mend').getAttribute('aria-busy')") == "false"
    assert mended(page).startswith(VALID)


def test_a_large_tile(page: Page, tmp_path: pathlib.Path) -> None:
    """Its content isn't listed, and the features that are mended are drawn all the same."""
    path = written(tmp_path, "large.mvt", tile_of_size(5 << 20) + layer("b", [CROSSING, point(1, 1), CROSSING]))
    page.choose(path)
    assert mended(page) == VALID + "2 features mended. All else is byte for byte as it was."
    assert all(roles(page).values())
    page.press("changes", END)
    page.until(IS_MENDED)
    assert all(roles(page).values())


def test_many_changes(page: Page, tmp_path: pathlib.Path) -> None:
    page.choose(written(tmp_path, "many.mvt", layer("a", [CROSSING] * 1500)))
    assert mended(page).endswith("The first 1,000 changes are listed.")
    assert len(page.texts("#changes li")) == 1000


@pytest.mark.parametrize("ending, pack, unpack", [(".gz", gzip.compress, gzip.decompress), ("", zlib.compress, zlib.decompress)])
def test_a_packed_tile(page_in_each: Page, tmp_path: pathlib.Path, ending: str, pack: Callable[[bytes], bytes], unpack: Callable[[bytes], bytes]) -> None:
    """It is saved as it came."""
    page, tile = page_in_each, path_of("crossing_edges").read_bytes()
    page.choose(written(tmp_path, f"packed.mvt{ending}", pack(tile)))
    mended(page)
    wanted = native(tile)
    assert wanted is not None
    assert unpack(saved(page.browser, f"packed.mended.mvt{ending}", lambda: page.click("#save-mended"))) == wanted.tile


def folder_of_tiles(folder: pathlib.Path) -> List[pathlib.Path]:
    contents = {
        "0/0/0.mvt": path_of("crossing_edges").read_bytes(),
        "1/0/0.mvt.gz": gzip.compress(path_of("hole_in_hole").read_bytes()),
        "1/0/1.mvt": path_of("point").read_bytes(),
        "1/1/0.mvt": path_of("truncated").read_bytes(),
        "1/1/1.mvt": layer("a", [TWO_BEGINNINGS]),
    }
    return [written(folder / "tiles", name, content) for name, content in contents.items()]


def test_all_tiles_of_a_folder(page: Page, tmp_path: pathlib.Path) -> None:
    paths = folder_of_tiles(tmp_path)
    page.browser.type("folder", str(tmp_path / "tiles"))
    page.until("return document.querySelectorAll('#list [role=option]').length === arguments[0]", len(paths))
    page.until_done()
    archive = saved(page.browser, "mended.zip", lambda: page.click("#mend-all"))
    page.until("return document.getElementById('status').textContent === arguments[0]", "2 mended tiles of 4 files with a fault. 2 files can't be mended.")
    assert page.is_visible("status")
    (tmp_path / "first.zip").write_bytes(archive)
    with zipfile.ZipFile(tmp_path / "first.zip") as found:
        assert found.testzip() is None and found.namelist() == ["tiles/0/0/0.mvt", "tiles/1/0/0.mvt.gz"]
        for name, read in (("crossing_edges", found.read("tiles/0/0/0.mvt")), ("hole_in_hole", gzip.decompress(found.read("tiles/1/0/0.mvt.gz")))):
            wanted = native(path_of(name).read_bytes())
            assert wanted is not None and read == wanted.tile
    page.click("#drop-all")
    archive = saved(page.browser, "mended.zip", lambda: page.click("#mend-all"))
    page.until("return document.getElementById('status').textContent === arguments[0]", "3 mended tiles of 4 files with a fault. 1 file can't be mended.")
    (tmp_path / "second.zip").write_bytes(archive)
    with zipfile.ZipFile(tmp_path / "second.zip") as found:
        assert found.namelist() == ["tiles/0/0/0.mvt", "tiles/1/0/0.mvt.gz", "tiles/1/1/1.mvt"]
        wanted = native(layer("a", [TWO_BEGINNINGS]), drop=True)
        assert wanted is not None and found.read("tiles/1/1/1.mvt") == wanted.tile


def test_no_file_that_can_be_mended(page: Page) -> None:
    page.choose(path_of("truncated"), path_of("point"))
    page.click("#mend-all")
    page.until("return document.getElementById('status').textContent === arguments[0]", "0 mended tiles of 1 file with a fault. 1 file can't be mended.")
    page.click("#clear")
    page.choose(path_of("point"), path_of("empty"))
    assert not page.is_visible("mending-all")


def test_link_with_names(page: Page) -> None:
    """A tile of a link is saved by a name of its own."""
    page.click("[data-sample=crossing_edges]")
    page.until_shown("tile of the link")
    said = mended(page)
    assert said.startswith(VALID)
    tile = saved(page.browser, "tile of the link.mended.mvt", lambda: page.click("#save-mended"))
    wanted = native(path_of("crossing_edges").read_bytes())
    assert wanted is not None and tile == wanted.tile
    assert json.loads(page.fault)["code"] == 504
