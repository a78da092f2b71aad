// How the parts of pictures look. A colour is $NAME. What differs in colour differs in dashes, width or a label too.

/** How many looks of layers there are. */
export const LAYER_LOOKS = 8;

const LAYER_DASHES = ['none', '7 3', '2 3', '9 3 2 3'];

const PLANE = `
.picture-outside { fill: $outside; }
.picture-extent { fill: $paper; stroke: $extent; stroke-width: 1.5; }
.picture-grid, .picture-grid-ten, .picture-tick { fill: none; stroke-width: 1; }
.picture-grid { stroke: $grid; }
.picture-grid-ten { stroke: $grid-ten; }
.picture-tick { stroke: $faint; }
.picture-line { fill: none; stroke-linejoin: round; stroke-linecap: round; }
.picture-area { fill-opacity: .6; fill-rule: evenodd; }
.picture-dots { fill: none; stroke-width: 6; stroke-linecap: round; }
.picture-line.picture-ring { stroke: $ring; stroke-width: 1.5; }
.picture-line.picture-other { stroke: $other; stroke-width: 1; }
.picture-line.picture-casing { stroke: $paper; stroke-width: 8; }
.picture-line.picture-first-edge { stroke: $first; stroke-width: 5; }
.picture-line.picture-second-edge { stroke: $second; stroke-width: 3; stroke-dasharray: 9 7; }
.picture-line.picture-named { stroke: $first; stroke-width: 4; }
.picture-line.picture-second { stroke: $second; stroke-width: 2.2; stroke-dasharray: 9 6; }
.picture-line.picture-step { stroke: $first; stroke-width: 2.5; stroke-dasharray: 2 6; }
.picture-line.picture-path { stroke: $path; stroke-width: 2.5; }
.picture-line.picture-path-points { stroke: $path; stroke-width: 8; }
.picture-area.picture-ring, .picture-area.picture-path { fill: $ring-fill; }
.picture-area.picture-other { fill: $other-fill; }
.picture-area.picture-named { fill: $first-fill; }
.picture-area.picture-second { fill: $second-fill; }
.picture-arrows.picture-ring { fill: $ring; }
.picture-arrows.picture-first-edge, .picture-arrows.picture-named { fill: $first; }
.picture-arrows.picture-second-edge, .picture-arrows.picture-second { fill: $second; }
.picture-arrows.picture-path { fill: $path; }
.picture-area.picture-filled { fill-opacity: 1; }
.picture-area.picture-cut { fill: $cut; }
.picture-area.picture-added { fill: $added; }
.picture-area.picture-kept { fill: $ring-fill; }
.picture-line.picture-cut-edge { stroke: $first; stroke-width: 1.5; stroke-dasharray: 5 4; }
.picture-line.picture-added-edge { stroke: $second; stroke-width: 1.5; }
.picture-dots.picture-added-edge { stroke: $second; }
.picture-dots.picture-ring { stroke: $ring; }
.picture-dots.picture-first-edge, .picture-dots.picture-named { stroke: $first; }
.picture-dots.picture-second-edge, .picture-dots.picture-second { stroke: $second; }
.picture-dots.picture-path { stroke: $path; }
`;

const MARKS = `
.picture-mark-casing { fill: none; stroke: $paper; stroke-width: 5; stroke-linejoin: round; }
.picture-symbol { fill: none; stroke: $mark; stroke-width: 2; }
.picture-target-middle { fill: $mark; }
.picture-selected-mark .picture-symbol { stroke: $selected; }
.picture-selected-mark .picture-target-middle { fill: none; }
.picture-last .picture-symbol { fill: $fault; stroke: $fault; }
`;

const HALO = 'paint-order: stroke; stroke: $paper; stroke-width: 4; stroke-linejoin: round;';
const TEXTS = `
.picture-svg text { font-family: system-ui, "Segoe UI", Roboto, "DejaVu Sans", sans-serif; font-size: 12px; }
.picture-svg .picture-ruler { fill: $faint; font-size: 11px; ${HALO} }
.picture-label, .picture-label-first, .picture-label-second { font-weight: 600; ${HALO} }
.picture-label { fill: $text; }
.picture-label-first { fill: $first; }
.picture-label-second { fill: $second; }
.picture-label-faint { fill: $faint; ${HALO} }
.picture-svg .picture-caption { fill: $text; font-size: 15px; font-weight: 600; }
.picture-words, .picture-code, .picture-span { fill: $text; }
.picture-words-faint, .picture-code-faint, .picture-span-faint { fill: $faint; }
.picture-words-fault, .picture-span-fault { fill: $fault; font-weight: 600; }
.picture-svg .picture-span, .picture-svg .picture-span-faint, .picture-svg .picture-span-fault { font-size: 11px; }
.picture-svg .picture-code, .picture-svg .picture-code-faint {
  font-family: ui-monospace, "DejaVu Sans Mono", Menlo, Consolas, monospace; font-size: 13px;
}
`;

const STRIPS = `
.picture-paper { fill: $paper; }
.picture-cell { fill: $paper; stroke: $grid-ten; stroke-width: 1; }
.picture-cell-first { fill: $field-1; stroke: $grid-ten; stroke-width: 1; }
.picture-cell-second { fill: $second-fill; stroke: $second; stroke-width: 2; stroke-dasharray: 6 3; }
.picture-cell-fault { fill: $fault-fill; stroke: $fault; stroke-width: 2.5; }
.picture-message { fill: $outside; }
.picture-field-1 { fill: $field-1; }
.picture-field-2 { fill: $field-2; }
.picture-field-3 { fill: $field-3; }
.picture-field-4 { fill: $field-4; }
.picture-field-fault { fill: $fault-fill; }
.picture-field-outer { fill: none; stroke: $extent; stroke-width: 1; stroke-dasharray: 3 3; }
`;

const LAYERS = Array.from({ length: LAYER_LOOKS }, (_, k) => `
.picture-layer-${k} { stroke: $layer-${k}; stroke-width: 1.3; stroke-dasharray: ${LAYER_DASHES[k % LAYER_DASHES.length]}; }
.picture-map-area.picture-layer-${k} { fill: $layer-${k}; fill-opacity: .18; fill-rule: evenodd; }
`).join('') + `
.picture-map-points { stroke-width: 7; stroke-dasharray: none; }
.picture-selected { stroke: $selected; stroke-width: 3; stroke-dasharray: none; fill-opacity: .25; }
.picture-map-area.picture-selected { fill: $selected; fill-rule: evenodd; }
.picture-map-points.picture-selected { stroke-width: 11; }
`;

/** The styles of all parts. */
export const STYLES = PLANE + MARKS + TEXTS + STRIPS + LAYERS;
