"""Where compare_native has the page's module run: in Node, Chromium or Firefox."""
from __future__ import annotations

import base64
import json
import pathlib
import subprocess
import sys
from typing import Callable, Dict, Iterator, List

TOP = pathlib.Path(__file__).resolve().parents[3]
MODULE = TOP / "web/module/out/mvtgate.wasm"
# so many questions are given to a browser at once
BATCH = 200
NODE = """
import { createInterface } from 'node:readline';
import { answerer } from '%s/web/tests/module/answers.js';
let answer;
for await (const line of createInterface({ input: process.stdin })) {
  if (answer) process.stdout.write(answer(line) + '\\n');
  else answer = answerer(line);
}
"""


def module_text() -> str:
    return base64.b64encode(MODULE.read_bytes()).decode()


def ask_node(questions: List[str], folder: pathlib.Path) -> Iterator[str]:
    given, made = folder / "questions", folder / "answers"
    given.write_text("\n".join([module_text(), *questions]) + "\n")
    with given.open() as source, made.open("w") as target:
        subprocess.run(["node", "--input-type=module", "-e", NODE % TOP], stdin=source, stdout=target, check=True)
    with made.open() as lines:
        yield from lines


def page(folder: pathlib.Path) -> str:
    """The address of a page with the module and a function answers, which takes a list of questions."""
    script = ["esbuild", f"{TOP}/web/tests/module/answers.js", "--bundle", "--format=iife", "--global-name=made", "--log-level=warning"]
    bundled = subprocess.run(script, stdout=subprocess.PIPE, text=True, check=True).stdout
    end = f"const answer = made.answerer('{module_text()}'); function answers(questions) {{ return questions.map(answer); }}"
    path = folder / "page.html"
    path.write_text(f'<!doctype html><meta charset="utf-8"><title>answers</title><script>{bundled}{end}</script>')
    return path.as_uri()


def ask_browser(name: str, questions: List[str], folder: pathlib.Path) -> Iterator[str]:
    sys.path.append(str(TOP / "web/tests/browser"))
    import browsers

    browser: browsers.Browser = {"Chromium": browsers.Chromium, "Firefox": browsers.Firefox}[name](folder)
    try:
        browser.open(page(folder))
        for at in range(0, len(questions), BATCH):
            # (as a text: Firefox hands over no more than it has to look through)
            text = browser.script("return JSON.stringify(window.answers(JSON.parse(arguments[0])))", json.dumps(questions[at : at + BATCH]))
            yield from json.loads(text)
    finally:
        browser.quit()


ENGINES: Dict[str, Callable[[List[str], pathlib.Path], Iterator[str]]] = {
    "Node": ask_node,
    "Chromium": lambda questions, folder: ask_browser("Chromium", questions, folder),
    "Firefox": lambda questions, folder: ask_browser("Firefox", questions, folder),
}
