/** What a call of the gate can end with beside an answer. */

/** Memory was refused. The same call may answer where more of it is free. */
export class OutOfMemory extends Error {
  constructor() {
    super('out of memory');
    this.name = 'OutOfMemory';
  }
}

/** The call was stopped before it answered. */
export class Stopped extends Error {
  constructor() {
    super('stopped');
    this.name = 'Stopped';
  }
}

/**
 * @template Answer
 * @param {() => Answer} work
 * @returns {Answer} OutOfMemory where the work ends with a RangeError, as JavaScript's own calls do where memory is refused
 */
export function withMemory(work) {
  try {
    return work();
  } catch (error) {
    if (error instanceof RangeError) throw new OutOfMemory();
    throw error;
  }
}
