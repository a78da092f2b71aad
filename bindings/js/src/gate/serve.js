/**
 * What a worker does with the messages of remote.js: `load` compiles the module, any other call asks the gate.
 *
 * @typedef {'check' | 'checkQuickly' | 'faults' | 'faultsQuickly' | 'mend' | 'confirm' | 'dump' | 'advise'} Call
 * @typedef {{id: number, call: 'load' | Call, given: any[]}} Question
 * @typedef {{id: number, answer: any, milliseconds: number, memory: number}
 *   | {id: number, error: {name: string, message: string}, memory: number}} Reply the memory is the size in bytes to which the
 *   module's memory grew
 */
import { Calls } from './calls.js';

/**
 * @param {(reply: Reply, moved: Transferable[]) => void} reply what is moved needn't be copied
 * @returns {(question: Question) => void}
 */
export function server(reply) {
  /** @type {Calls | undefined} */
  let calls;

  /** @param {Question} question */
  const answer = ({ call, given }) => {
    if (call === 'load') {
      const [module] = given;
      calls = new Calls(module instanceof WebAssembly.Module ? module : new WebAssembly.Module(module));
      return calls.version();
    }
    if (!calls) throw new Error('the module was not loaded');
    return /** @type {any} */ (calls)[call](...given);
  };

  return (question) => {
    const { id } = question;
    const began = performance.now();
    try {
      const found = answer(question);
      const milliseconds = performance.now() - began;
      reply({ id, answer: found, milliseconds, memory: calls?.memory ?? 0 }, found?.tile ? [found.tile.buffer] : []);
    } catch (error) {
      const { name, message } = /** @type {Error} */ (error);
      reply({ id, error: { name, message }, memory: calls?.memory ?? 0 }, []);
    }
  };
}
