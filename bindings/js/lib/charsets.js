// A translator of character sets.

import { Handle } from "./handle.js";
import { ROOM, bytesOf } from "./instance.js";

/** The number of bytes that are translated at once: in the room, their translation has three times as many after them. */
const CHUNK = ROOM / 4;

const encoder = new TextEncoder();

export class Charsets extends Handle {
  constructor(instance) {
    super(instance, (out) => instance.library.vt100_charsets_new(out));
  }

  translate(data) {
    const source = bytesOf(data) ?? encoder.encode(data);
    const out = [];
    for (let at = 0; at < source.length; at += CHUNK) out.push(this.#translated(source.subarray(at, at + CHUNK)));
    return out.length === 1 ? out[0] : joined(out);
  }

  /** Returns a copy of the translation of at most CHUNK bytes. */
  #translated(chunk) {
    const { library, bytes, room, first } = this._instance;
    const target = room + CHUNK;
    bytes.set(chunk, room);
    this._instance.check(library.vt100_charsets_translate(this._at, BigInt(room), BigInt(chunk.length),
      BigInt(target), BigInt(3 * CHUNK), first));
    return this._instance.bytes.slice(target, target + this._instance.word);
  }
}

/** Returns one array with the bytes of several. */
function joined(parts) {
  const all = new Uint8Array(parts.reduce((length, part) => length + part.length, 0));
  let at = 0;
  for (const part of parts) {
    all.set(part, at);
    at += part.length;
  }
  return all;
}
