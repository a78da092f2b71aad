"""What pages are held against, so that all can use them: names of controls, contrast, sizes, the way of the focus."""
from __future__ import annotations

from typing import Any, Dict, List, Tuple

from browsers import Chromium
from page import Page

PHONE = 360  # pixels
LEAST_CONTRAST = 4.5  # of text (Web Content Accessibility Guidelines 2.2, 1.4.3)
LEAST_TARGET = 24  # pixels (2.5.8)
CONTROLS = {"button", "checkbox", "radio", "textbox", "searchbox", "listbox", "option", "link", "DisclosureTriangle"}
NAMED_ROLES = CONTROLS | {"img", "region", "navigation", "grid", "gridcell", "tree", "treeitem"}

_CONTRASTS = """
const canvas = document.createElement('canvas').getContext('2d', { willReadFrequently: true });
function channels(colour) {
  canvas.clearRect(0, 0, 1, 1); canvas.fillStyle = colour; canvas.fillRect(0, 0, 1, 1);
  return [...canvas.getImageData(0, 0, 1, 1).data].map((it) => it / 255);
}
function luminance(colour) {
  const [r, g, b] = colour.map((it) => (it <= 0.04045 ? it / 12.92 : ((it + 0.055) / 1.055) ** 2.4));
  return 0.2126 * r + 0.7152 * g + 0.0722 * b;
}
function ground(element) {
  for (let it = element; it; it = it.parentElement) {
    const [r, g, b, a] = channels(getComputedStyle(it).backgroundColor);
    if (a === 1) return [r, g, b];
    if (a > 0) throw new Error('a ground that is half transparent');
  }
  return [1, 1, 1];
}
const low = [];
const texts = document.createTreeWalker(document.body, NodeFilter.SHOW_TEXT);
let count = 0;
for (let text = texts.nextNode(); text; text = texts.nextNode()) {
  const element = text.parentElement;
  if (!text.data.trim() || !element.checkVisibility() || element.closest('svg, script, style, .away')) continue;
  count += 1;
  const [one, other] = [luminance(channels(getComputedStyle(element).color).slice(0, 3)), luminance(ground(element))].sort((a, b) => b - a);
  const contrast = (one + 0.05) / (other + 0.05);
  if (contrast < arguments[0]) low.push(`${contrast.toFixed(2)} ${text.data.trim().slice(0, 40)}`);
}
return [low, count]
"""

_SMALL = """
return [...document.querySelectorAll('button, summary, select, input, .chooser label')]
    .filter((it) => it.checkVisibility() && it.type !== 'radio' && it.type !== 'checkbox' && it.type !== 'file')
    .map((it) => [it.textContent, it.getBoundingClientRect()])
    .filter(([, box]) => box.width < arguments[0] || box.height < arguments[0]).map(([text]) => text)
"""


def roles_and_names(chromium: Chromium) -> List[Tuple[str, str]]:
    """What Chromium hands to a screen reader."""
    nodes: List[Dict[str, Any]] = chromium.tools("Accessibility.getFullAXTree")["nodes"]
    return [(str(it["role"]["value"]), str(it.get("name", {}).get("value", ""))) for it in nodes if not it["ignored"]]


def low_contrasts(page: Page) -> Tuple[List[str], int]:
    """The texts that are seen too badly, and how many texts there are."""
    low, count = page.script(_CONTRASTS, LEAST_CONTRAST)
    return low, count


def small_targets(page: Page) -> List[str]:
    """The controls that are too small for a finger."""
    found: List[str] = page.script(_SMALL, LEAST_TARGET)
    return found


def press_tab(chromium: Chromium) -> None:
    for kind in ("keyDown", "keyUp"):
        chromium.tools("Input.dispatchKeyEvent", type=kind, key="Tab", code="Tab", windowsVirtualKeyCode=9)
