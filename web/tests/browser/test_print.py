"""The page on paper: what was found is there, whole and in light colours, and nothing that is pressed or typed into."""
from __future__ import annotations

import html
import re
import shutil
import subprocess
import unicodedata
from collections import Counter
from typing import List, Tuple

import pytest

from browsers import Chromium
from page import Page
from samples import NAMES, path_of

pytestmark = pytest.mark.skipif(shutil.which("pdftotext") is None, reason="Debian's poppler-utils is missing")

FEW = ["crossing_edges", "point", "truncated"]
MANY = [*FEW, *(it for it in NAMES if it not in FEW)][:60]  # more than the list shows at once
CONTROLS = ("Choose files", "Drop tiles", "Or look at a sample", "Remove all", "Copy", "Zoom", "Save as SVG", "Find by", "Confirm another fault")
MARGIN = 27.0  # points, of both browsers: about a centimetre
WORD = re.compile(r'<word xMin="([\d.-]+)" yMin="[\d.-]+" xMax="([\d.-]+)" yMax="[\d.-]+">(.*?)</word>')


def plain(text: str) -> str:
    """A text without what paper changes: the ends of lines, ligatures, large letters at a beginning."""
    return "".join(unicodedata.normalize("NFKC", text).split()).lower()


def text_of(pdf: bytes) -> str:
    """All words of a PDF file, as `plain` makes them."""
    return plain(subprocess.run(["pdftotext", "-", "-"], input=pdf, stdout=subprocess.PIPE, check=True).stdout.decode())


def words_of(pdf: bytes) -> Tuple[float, List[Tuple[float, float, str]]]:
    """The width of the first sheet, and the words on all: where each begins and ends, and what it is."""
    text = subprocess.run(["pdftotext", "-bbox", "-", "-"], input=pdf, stdout=subprocess.PIPE, check=True).stdout.decode()
    width = re.search(r'<page width="([\d.]+)"', text)
    assert width
    return float(width[1]), [(float(left), float(right), html.unescape(word)) for left, right, word in WORD.findall(text)]


def brightness_of(pdf: bytes) -> float:
    """That of the first sheet, from 0 to 255."""
    image = subprocess.run(["pdftoppm", "-r", "20", "-singlefile", "-"], input=pdf, stdout=subprocess.PIPE, check=True).stdout
    pixels = image.split(b"\n", 3)[3]  # (after the heads of the format PPM)
    return sum(pixels) / len(pixels)


def test_answer(page_in_each: Page) -> None:
    page = page_in_each
    page.choose(*map(path_of, MANY))
    found = text_of(page.browser.printed())
    said = ["verdict", "sentence", "checker", "totals", "record-title", "contents-summary"]
    assert [it for it in [*map(page.text, said), *page.texts("#picture td"), *page.texts("#facts dd")] if plain(it) not in found] == []
    assert [name for name in MANY if plain(f"{name}.mvt") not in found] == []
    assert plain("polygon: the rings of each polygon") in found and plain("feature: nor do the polygons") not in found
    assert [it for it in CONTROLS if plain(it) in found] == []


# texts of the answer, whose words the sheets have to have at least as often
PARTS = "#banner p > span, #verdict, #sentence, #picture .picture-strip-box text, #picture figcaption span, #picture th, #picture td"


# a plane, a plane with numbers, bytes, layers
@pytest.mark.parametrize("name", ["crossing_edges", "no_step", "cut_geometry", "three_layers_of_one_name"])
def test_nothing_is_cut(page_in_each: Page, name: str) -> None:
    """All words are between the margins, also those of the pictures."""
    page = page_in_each
    page.choose(path_of(name))
    wanted = Counter(plain(word) for text in page.texts(PARTS) for word in text.split() if word.isascii())
    width, words = words_of(page.browser.printed())
    assert [word for left, right, word in words if left < MARGIN or right > width - MARGIN] == []
    assert wanted - Counter(plain(word) for _, _, word in words) == Counter()
    assert wanted.total() > 20


def test_dark_scheme(chromium: Chromium, page: Page) -> None:
    page.choose(path_of("hole_in_hole"))
    chromium.use_scheme("dark")
    dark = brightness_of(chromium.printed())
    chromium.use_scheme("light")
    assert dark > 225
    assert brightness_of(chromium.printed()) == pytest.approx(dark, abs=2)
