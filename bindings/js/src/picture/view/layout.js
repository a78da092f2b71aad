// How the parts of a viewer are laid out. The sheet is made by script, which a page's Content-Security-Policy allows.

import { colourProperties, withProperties } from '../colours.js';
import { STYLES } from '../style.js';

const LAYOUT = `
.picture-figure { margin: 0; display: grid; grid-template-columns: minmax(0, 1fr); gap: .75rem; min-width: 0; }
.picture-caption-box { display: grid; grid-template-columns: minmax(0, 1fr); gap: .15rem; }
.picture-title { font-weight: 600; }
.picture-views { display: grid; grid-template-columns: repeat(auto-fit, minmax(min(100%, 17rem), 1fr)); gap: .75rem; }
.picture-pane { display: grid; box-sizing: border-box; gap: .35rem; min-width: 0; align-content: start; }
.picture-pane[hidden] { display: none; }
.picture-view {
  position: relative; width: 100%; aspect-ratio: 1; min-height: 15rem; max-height: min(34rem, 75vh); border: 1px solid $extent;
  border-radius: 6px; background: $outside; overflow: hidden; touch-action: pan-x pan-y; cursor: grab; user-select: none;
}
.picture-view:active { cursor: grabbing; }
.picture-view:focus { border-color: $second; }
.picture-view:focus-visible, .picture-controls button:focus-visible { outline: 3px solid $second; outline-offset: 1px; }
.picture-view svg { display: block; width: 100%; height: 100%; transform-origin: 0 0; }
.picture-view [data-feature] { cursor: pointer; }
.picture-controls { display: flex; flex-wrap: wrap; gap: .3rem; }
.picture-controls button {
  font: inherit; font-size: .875rem; min-width: 2.1rem; min-height: 2.1rem; padding: .1rem .45rem; border: 1px solid $extent; border-radius: 5px;
  background: $paper; color: $text; cursor: pointer;
}
.picture-controls button:hover { background: $outside; }
.picture-readout {
  position: absolute; inset-block-start: .35rem; inset-inline-end: .35rem; padding: 0 .45rem; border-radius: 4px; background: $paper;
  color: $text; font-size: .875rem; font-variant-numeric: tabular-nums; pointer-events: none;
}
.picture-readout:empty { display: none; }
.picture-hint { margin: 0; font-size: .875rem; color: $faint; }
.picture-status { margin: 0; min-height: 1.5em; }
.picture-hint-fingers { display: none; }
@media (any-pointer: coarse) { .picture-hint-fingers { display: inline; } }
@media (hover: none) and (pointer: coarse) { .picture-hint-mouse { display: none; } }
.picture-strip-box { overflow-x: auto; border: 1px solid $extent; border-radius: 6px; background: $paper; }
.picture-strip-box svg { display: block; }
.picture-places { border-collapse: collapse; width: 100%; font-size: .95rem; }
.picture-places caption { text-align: start; font-weight: 600; padding-block-end: .25rem; }
.picture-places th {
  text-align: start; font-weight: normal; color: $faint; padding: .15rem 1.25rem .15rem 0; vertical-align: top; white-space: nowrap;
  width: 1%;
}
@media (max-width: 30rem) { .picture-places th { white-space: normal; width: 38%; padding-inline-end: .5rem; } }
.picture-places td { padding: .15rem 0; font-variant-numeric: tabular-nums; overflow-wrap: anywhere; }
.picture-sample { vertical-align: middle; margin-inline-end: .5rem; }
.picture-locator { fill: none; stroke: $mark; stroke-width: 1.5; stroke-dasharray: 4 3; }
@media print {
  .picture-controls, .picture-hint, .picture-readout { display: none; }
  .picture-figure { display: block; }
  .picture-figure > * { margin-block-end: .75rem; }
  .picture-view { max-width: 34rem; }
  .picture-caption-box { break-after: avoid; }
  .picture-view, .picture-strip-box { break-inside: avoid; }
  .picture-strip-box svg { width: 100%; height: auto; }
}
`;

let isInstalled = false;

/** Adds the styles to the document, once. */
export function installStyles() {
  if (isInstalled) return;
  const sheet = new CSSStyleSheet();
  sheet.replaceSync(colourProperties() + withProperties(STYLES + LAYOUT));
  document.adoptedStyleSheets = [...document.adoptedStyleSheets, sheet];
  isInstalled = true;
}
