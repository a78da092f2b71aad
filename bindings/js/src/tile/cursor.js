// Goes from field to field of a message without making an object for each: a message may have millions.

const VARINT = 0, EIGHT_BYTES = 1, DELIMITED = 2, FOUR_BYTES = 5;
const LONGEST_VARINT = 10;
const GREATEST_KEY = 2 ** 32 - 1;

export class Cursor {
  /**
   * @param {Uint8Array} bytes
   * @param {{begin: number, end: number}} message
   */
  constructor(bytes, { begin, end }) {
    this.bytes = bytes;
    this.end = end;
    /** Where the field begins that was read last, where its payload does, and where the next field would. */
    this.at = begin;
    this.next = begin;
    this.payload = begin;
    this.number = 0;
    this.wireType = 0;
  }

  /** Reads the next field, and says whether it is there. */
  read() {
    const begin = this.next;
    const key = this.#varint(begin);
    if (key < 8 || key > GREATEST_KEY) return this.#isAt(begin);
    this.at = begin;
    this.number = Math.floor(key / 8);
    this.wireType = key % 8;
    this.payload = this.next;
    return this.#skipPayload() || this.#isAt(begin);
  }

  /**
   * Reads a varint in place of a field, as a packed list has them. Above 2^53 it isn't exact.
   * @returns {number} -1 where none is there
   */
  readNumber() {
    this.at = this.next;
    const number = this.#varint(this.at);
    if (number < 0) this.next = this.at;
    return number;
  }

  /**
   * Goes back to where no field could be read.
   * @param {number} begin
   */
  #isAt(begin) {
    this.next = begin;
    return false;
  }

  #skipPayload() {
    if (this.wireType === VARINT) return this.#varint(this.next) >= 0;
    if (this.wireType === DELIMITED) {
      const length = this.#varint(this.next);
      if (length < 0) return false;
      this.payload = this.next;
      this.next += length;
    } else if (this.wireType === EIGHT_BYTES) this.next += 8;
    else if (this.wireType === FOUR_BYTES) this.next += 4;
    else return false;
    return this.next <= this.end;
  }

  /**
   * Reads a varint, and goes to the place after it. Above 2^53 the number is not exact, and too large for any length.
   * @param {number} at
   * @returns {number} -1 where none is there
   */
  #varint(at) {
    const last = Math.min(this.end, at + LONGEST_VARINT);
    let value = 0, weight = 1;
    for (let place = at; place < last; place += 1, weight *= 128) {
      const byte = this.bytes[place];
      value += (byte % 128) * weight;
      if (byte >= 128) continue;
      this.next = place + 1;
      return place - at === LONGEST_VARINT - 1 && byte > 1 ? -1 : value;
    }
    return -1;
  }
}
