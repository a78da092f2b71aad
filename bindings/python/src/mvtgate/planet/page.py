"""The page that shows a tile, which the report's links open."""
from __future__ import annotations

import pathlib
from typing import Optional

_FOLDER = pathlib.Path(__file__).resolve().parent
# (a package has it beside this module, a checkout where tools/page puts it)
_PAGES = (_FOLDER / "page.html", _FOLDER.parents[4] / "web/out/index.html")


def built_page() -> Optional[pathlib.Path]:
    """The page, where it was built."""
    return next((it for it in _PAGES if it.exists()), None)
