/** What the module answers, for compare_native, in Node or in a browser. */
import { Calls } from '../../../bindings/js/src/gate/calls.js';

/** @type {import('../../../bindings/js/src/gate/calls.js').Profile[]} */
const PROFILES = ['polygon', 'feature'];

/**
 * @param {string} base64
 * @returns {Uint8Array}
 */
const bytesOf = (base64) => Uint8Array.from(atob(base64), (letter) => letter.charCodeAt(0));

/**
 * @param {import('../../../bindings/js/src/gate/calls.js').Mending} mending
 * @returns {(string | null)[]} the mended tile in base64, the report, and the fault
 */
const mendedAs = ({ tile, report, fault }) => [tile && btoa(Array.from(tile, (byte) => String.fromCharCode(byte)).join('')), report, fault];

/**
 * @param {string} module in base64
 * @returns {(question: string) => string} answers a question, a JSON text of a tile in base64 and of texts of faults, by a JSON
 *   text of the results of all calls
 */
export function answerer(module) {
  const gate = new Calls(new WebAssembly.Module(bytesOf(module)));
  return (question) => {
    const { tile, faults } = JSON.parse(question);
    const bytes = bytesOf(tile);
    return JSON.stringify({
      check: PROFILES.map((profile) => gate.check(bytes, profile)),
      check_quickly: PROFILES.map((profile) => gate.checkQuickly(bytes, profile)),
      faults_quickly: PROFILES.map((profile) => gate.faultsQuickly(bytes, profile)),
      confirm: faults.map((/** @type {string} */ fault) => PROFILES.map((profile) => gate.confirm(bytes, fault, profile))),
      mend: PROFILES.map((profile) => [false, true].map((drop) => mendedAs(gate.mend(bytes, profile, drop)))),
      dump: gate.dump(bytes),
      advise: gate.advise(bytes),
    });
  };
}
