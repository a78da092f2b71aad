// Where a fault is on the earth, in words.

import { aboutOf, pointOf } from './about.js';
import { addressOf, boxOn, positionOn } from './address.js';

/**
 * Longitude and latitude of a fault's point, or of its tile's sides; empty where the name of the file has no address.
 * @param {string} name
 * @param {import('../files/checks.js').Fault} fault
 * @param {Uint8Array} tile
 */
export function placeText(name, fault, tile) {
  const address = addressOf(name);
  if (!address) return '';
  const point = pointOf(fault, aboutOf(fault, tile));
  if (point) return positionOn(address, point.x, point.y).join(', ');
  const { west, south, east, north } = boxOn(address);
  return `the tile from ${west}, ${south} to ${east}, ${north}`;
}
