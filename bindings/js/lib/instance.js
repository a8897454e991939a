// The memory and the functions of one instance of the module.

import { errorOf, outOfMemory } from "./errors.js";
import { Guard } from "./guard.js";

/** The number of bytes that every call may use for its input and output. */
export const ROOM = 65536;

/** The number of bytes of an array that small copies of the memory share. Making an array takes longer than copying a log. */
const COPIES_SIZE = 65536;

const RESULTS_SIZE = 64;
const HANDLE_SIZE = 8;

// Without ignoreBOM, a U+FEFF at the start of a text would be lost.
const decoder = new TextDecoder("utf-8", { ignoreBOM: true });
const encoder = new TextEncoder();

/** Returns the text of `len` bytes of UTF-8. Most cells have at most one byte. */
export function textOf(bytes, at, len) {
  if (len === 0) return "";
  if (len === 1) return String.fromCharCode(bytes[at]);
  return decoder.decode(bytes.subarray(at, at + len));
}

/** Returns the number that is stored in 8 bytes. Lengths and counts are exact, since memory is smaller than 2^53. */
export function wordOf(view, at) {
  return view.getUint32(at, true) + view.getUint32(at + 4, true) * 0x100000000;
}

/** Returns whether `data` is an ArrayBuffer, which may be that of another realm, such as a frame. */
export function isArrayBuffer(data) {
  return data instanceof ArrayBuffer || Object.prototype.toString.call(data) === "[object ArrayBuffer]";
}

/** Returns the bytes that `process` was given, or undefined for a string. */
export function bytesOf(data) {
  if (typeof data === "string") return undefined;
  if (data instanceof Uint8Array) return data;
  if (ArrayBuffer.isView(data)) return new Uint8Array(data.buffer, data.byteOffset, data.byteLength);
  if (isArrayBuffer(data)) return new Uint8Array(data);
  throw new TypeError("data must be a string, a Uint8Array or other view, or an ArrayBuffer");
}

/**
 * An instance of the module, its memory, and room in it for what is passed to its functions.
 *
 * Pointers and sizes are bigints at the boundary, also in the module with a 32-bit memory, whose functions keep their
 * types. A view of the memory is detached when the memory grows, so every call that may allocate is followed by
 * `check` or `renew`.
 */
export class Instance {
  #copies = new Uint8Array(0);
  #copiesLen = 0;

  constructor(exports) {
    const guard = new Guard(exports);
    this.library = guard.functions;
    this.memory = exports.memory;
    this.bytes = new Uint8Array(0);
    this.renew();
    // Calls store their results here: a length, a flag, a number of rows or columns, a viewer, or a state of 56 bytes.
    this.results = this.allocate(RESULTS_SIZE);
    this.first = BigInt(this.results);
    this.second = this.first + 8n;
    this.third = this.first + 16n;
    guard.emptyHandle = this.newSlot();
    this.room = this.allocate(ROOM);
    this.roomPointer = BigInt(this.room);
    this.registry = new FinalizationRegistry((slot) => this.freeSlot(slot));
  }

  /** Renews the views if the memory has grown. */
  renew() {
    if (this.bytes.length > 0) return;
    this.bytes = new Uint8Array(this.memory.buffer);
    this.view = new DataView(this.memory.buffer);
  }

  /** Throws the error for a status other than 0, and renews the views. */
  check(status) {
    this.renew();
    if (status !== 0) throw errorOf(status);
  }

  /** Returns the number that a call stored in the first 8 bytes of the results. */
  get word() {
    return wordOf(this.view, this.results);
  }

  /** Returns the flag that a call stored in the first byte of the results. */
  get flag() {
    return this.bytes[this.results] === 1;
  }

  /** Returns the address of `count` new bytes. */
  allocate(count) {
    const at = Number(this.library.vt100_js_malloc(BigInt(count)));
    this.renew();
    if (at === 0) throw outOfMemory();
    return at;
  }

  /** Frees what `allocate` returned. */
  release(at) {
    this.library.vt100_js_free(BigInt(at));
  }

  /** Returns what `use` returns for the address of `count` bytes, which belong to it until it returns. */
  withRoom(count, use) {
    if (count <= ROOM) return use(this.room);
    const at = this.allocate(count);
    try {
      return use(at);
    } finally {
      this.release(at);
    }
  }

  /** Returns a copy of `count` bytes of the memory, which stays as it is. Small copies share an array. */
  copyOf(at, count) {
    if (count > COPIES_SIZE / 4) return this.bytes.slice(at, at + count);
    if (this.#copiesLen + count > this.#copies.length) {
      this.#copies = new Uint8Array(COPIES_SIZE);
      this.#copiesLen = 0;
    }
    const copy = this.#copies.subarray(this.#copiesLen, (this.#copiesLen += count));
    copy.set(this.bytes.subarray(at, at + count));
    return copy;
  }

  /** Returns the pointer to a new empty handle. */
  newSlot() {
    const at = this.allocate(HANDLE_SIZE);
    this.view.setBigUint64(at, 0n, true);
    return BigInt(at);
  }

  /** Frees a handle and its object. Does nothing after a trap, when every function of the module traps. */
  freeSlot(slot) {
    try {
      this.library.vt100_free(slot);
      this.library.vt100_js_free(slot);
    } catch (error) {
      if (!(error instanceof WebAssembly.RuntimeError)) throw error;
    }
  }

  /** Puts data into the room, at most `size` bytes at a time, and calls `take` with the number of bytes each time. */
  inChunks(data, take, size = ROOM) {
    const source = bytesOf(data);
    if (source === undefined) return this.#textInChunks(data, take, size);
    for (let at = 0; at < source.length; at += size) {
      const chunk = source.subarray(at, at + size);
      this.bytes.set(chunk, this.room);
      take(chunk.length);
    }
  }

  #textInChunks(text, take, size) {
    for (let at = 0; at < text.length; ) {
      // encodeInto stops before a surrogate pair that does not fit.
      const target = this.bytes.subarray(this.room, this.room + size);
      const { read, written } = encoder.encodeInto(at === 0 ? text : text.slice(at), target);
      at += read;
      take(written);
    }
  }

  /** Returns the string of a constant of the library, which ends with a null byte. */
  constant(pointer) {
    const start = Number(pointer);
    return textOf(this.bytes, start, this.bytes.indexOf(0, start) - start);
  }
}
