// The script of a run's report: the map of the tiles, the list of all that have a fault, and the pictures of faults. All else is in the file as it is written.

import { byId } from '../app/tools/dom.js';
import { MapView } from './map/view.js';
import { Pictures } from './pictures.js';
import { TileList } from './tiles/view.js';

/**
 * The content of a script element with JSON.
 * @param {string} identifier
 */
function dataOf(identifier) {
  return JSON.parse(byId(identifier, HTMLScriptElement).text);
}

// (a canvas keeps the colours of the screen, unless it is drawn anew for paper)
addEventListener('beforeprint', () => document.documentElement.classList.add('on-paper'));
addEventListener('afterprint', () => document.documentElement.classList.remove('on-paper'));

new Pictures(dataOf('page-data')).start();
if (document.getElementById('map-view')) {
  const map = dataOf('map-data');
  const list = document.getElementById('tiles') ? new TileList(dataOf('tiles-data'), map) : null;
  new MapView(map, list && ((block, name) => list.show(block, name))).start();
  // (what is seen first comes first)
  setTimeout(() => list?.start());
}
