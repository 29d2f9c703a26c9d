// The proved module, and what is lent to it. A call is given lent buffers as address and length: addresses are numbers of 32 bits, lengths of 64
// (BigInt). This is the one place where the page answers for what it lends: true lengths, aligned, no two that overlap. No rule of the board is here.
import { NUMBERS } from "./facts.js";

export const H = NUMBERS; // the header's numbers, by their names without DESKBOARD_

class Lent {
  constructor(memory, at, length, type) { Object.assign(this, { memory, at, length, type }); }
  // Anew each time: a view is lost when the module's memory grows.
  get view() { return new this.type(this.memory.buffer, this.at, this.length); }
  first(length) { return new Lent(this.memory, this.at, Math.min(length, this.length), this.type); }
}

export class Desk {
  static async open(bytes) { return new Desk((await WebAssembly.instantiate(bytes, {})).instance.exports); }

  constructor(exports) { Object.assign(this, { exports, top: exports.__heap_base.value }); }

  lend(length, type) {
    const at = (this.top + 15) & ~15;
    this.top = at + length * type.BYTES_PER_ELEMENT;
    const more = this.top - this.exports.memory.buffer.byteLength;
    if (more > 0) this.exports.memory.grow(Math.ceil(more / 65536));
    return new Lent(this.exports.memory, at, length, type);
  }

  bytes(length) { return this.lend(length, Uint8Array); }
  words(length) { return this.lend(length, Uint32Array); }
  pixels(length) { return this.lend(length, Uint16Array); }

  // call("run", board, memory, 100, report): 0 where it was done, else the refusal, with its number and item as the header has them.
  call(name, ...lent) {
    const given = lent.flatMap((each) => (each instanceof Lent ? [each.at, BigInt(each.length)] : [each]));
    return this.exports[`deskboard_${name}`](...given) >>> 0;
  }
}

export const numberOf = (answer) => answer & 255;
export const itemOf = (answer) => answer >>> 8;
