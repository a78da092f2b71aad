"""Makes each call of the extension once: every_call.py LIBRARY STAND_IN TILE.."""
from __future__ import annotations

import contextlib
import sys

from extension_cases import RAISED, cases

library, stand_in, *tiles = sys.argv[1:]
for it in cases(library, stand_in, tiles):
    it.prepare()
    with contextlib.suppress(*RAISED):
        it.call()
print("every call was made")
