"""Judges a tile in several interpreters of one process at once, again and again: interpreters.py TILE TEXT. From Python 3.12 on each has
a lock of its own. It prints how many there were."""
from __future__ import annotations

import importlib
import sys
import threading
from typing import Any, List

COUNT, ROUNDS = 4, 3
CODE = """
import mvtgate
with open({path!r}, "rb") as file:
    tile = file.read()
for _ in range(1000):
    fault = mvtgate.check(tile)
    assert fault is not None and fault.text == {text!r} and mvtgate.confirm(bytearray(tile), fault)
    assert mvtgate.faults(memoryview(tile)) == [fault] and mvtgate.dump(tile)["layers"]
try:
    mvtgate.check("text")
except TypeError:
    pass
else:
    raise AssertionError("a text is no tile")
assert type(mvtgate._library.calls).__module__ == {module!r}
"""


def main() -> None:
    interpreters: Any = importlib.import_module("_interpreters" if sys.version_info >= (3, 13) else "_xxsubinterpreters")
    import mvtgate
    from mvtgate import _library

    path, text = sys.argv[1:]
    code = CODE.format(path=path, text=text, module=type(_library.calls).__module__)
    failed: List[object] = []

    def work() -> None:
        it = interpreters.create()
        try:
            # (from 3.13 on it returns what was raised)
            error = interpreters.run_string(it, code)
            failed.extend([] if error is None else [error])
        except Exception as error:
            failed.append(error)
        finally:
            interpreters.destroy(it)

    for _ in range(ROUNDS):
        threads = [threading.Thread(target=work) for _ in range(COUNT)]
        for thread in threads:
            thread.start()
        with open(path, "rb") as file:
            fault = mvtgate.check(file.read())
        assert fault is not None and fault.text == text
        for thread in threads:
            thread.join()
    if failed:
        sys.exit("\n".join(map(str, failed)))
    print(COUNT * ROUNDS, "interpreters")


main()
