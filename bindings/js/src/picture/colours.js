// The colours of pictures. In the page they are custom properties, which follow the light or dark scheme; in a file they are the light
// ones, since not every viewer knows custom properties.

/** @type {Record<string, [light: string, dark: string]>} */
const COLOURS = {
  paper: ['#ffffff', '#1b2027'],
  outside: ['#eef1f4', '#12161b'],
  extent: ['#7d8894', '#77838f'],
  grid: ['#dfe5ea', '#2b333c'],
  'grid-ten': ['#c3ccd4', '#414c57'],
  text: ['#1f2328', '#e9eef3'],
  faint: ['#5d6873', '#a3afba'],
  mark: ['#1f2328', '#ffffff'],
  ring: ['#4b5b6b', '#a9b9c9'],
  'ring-fill': ['#c9d6e2', '#3b4c5d'],
  other: ['#a9b2bb', '#56616c'],
  'other-fill': ['#e3e7eb', '#2a3138'],
  first: ['#c4162a', '#ff6b78'],
  'first-fill': ['#f6c9cf', '#5c2229'],
  second: ['#0b5fd3', '#62a8ff'],
  'second-fill': ['#c6dcf8', '#1c3c66'],
  cut: ['#ee8a96', '#a3313f'],
  added: ['#7fb2f0', '#2f66a8'],
  path: ['#2a6f4e', '#6fcf9f'],
  fault: ['#c4162a', '#ff6b78'],
  'fault-fill': ['#fde2e5', '#58202a'],
  selected: ['#b35900', '#ffb454'],
  'field-1': ['#dbe9fb', '#1d3958'],
  'field-2': ['#dff1e3', '#1e4430'],
  'field-3': ['#f6ecd2', '#4c3e17'],
  'field-4': ['#ece2f7', '#3d2b57'],
  'layer-0': ['#0b5fd3', '#62a8ff'],
  'layer-1': ['#2a7f4f', '#63c98f'],
  'layer-2': ['#a15c00', '#e8a54b'],
  'layer-3': ['#8a3ab9', '#c48bea'],
  'layer-4': ['#b3265e', '#f0729f'],
  'layer-5': ['#0c7a86', '#4fc4d0'],
  'layer-6': ['#6b6f00', '#c5c94a'],
  'layer-7': ['#5a5f66', '#b4bbc3'],
};

/**
 * The definitions of the custom properties, in both schemes.
 * @returns {string}
 */
export function colourProperties() {
  const of = (/** @type {0|1} */ scheme) => Object.entries(COLOURS).map(([name, pair]) => `--picture-${name}: ${pair[scheme]};`).join(' ');
  return `:root { ${of(0)} }\n@media screen and (prefers-color-scheme: dark) { :root { ${of(1)} } }\n`;
}

/**
 * Styles with the custom properties, for the page.
 * @param {string} styles with a colour as $NAME
 * @returns {string}
 */
export function withProperties(styles) {
  return styles.replace(/\$([\w-]+)/g, (_, name) => `var(--picture-${name})`);
}

/**
 * Styles with the light colours themselves, for a file.
 * @param {string} styles with a colour as $NAME
 * @returns {string}
 */
export function withLightColours(styles) {
  return styles.replace(/\$([\w-]+)/g, (_, name) => COLOURS[name][0]);
}
