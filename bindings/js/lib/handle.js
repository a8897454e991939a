// The base class of all objects of the library.

import { NO_OBJECT, Vt100Error } from "./errors.js";
import { Instance, textOf } from "./instance.js";

const DISPOSE = Symbol.dispose ?? Symbol.for("Symbol.dispose");

/** An object of the library. Members whose names begin with an underscore are for this package alone. */
export class Handle {
  #instance;
  #slot;

  /** Holds the object that `make` stores in an empty handle. */
  constructor(instance, make) {
    if (!(instance instanceof Instance)) {
      throw new TypeError(`${new.target.name}() makes no object: make a Parser or a Mirror, or save() a Screen`);
    }
    const slot = instance.newSlot();
    try {
      instance.check(make(slot));
    } catch (error) {
      instance.freeSlot(slot);
      throw error;
    }
    this.#instance = instance;
    this.#slot = slot;
    instance.registry.register(this, slot, this);
  }

  free() {
    if (this.#slot === undefined) return;
    this.#instance.registry.unregister(this);
    this.#instance.freeSlot(this.#slot);
    this.#slot = undefined;
  }

  [DISPOSE]() {
    this.free();
  }

  get isFreed() {
    return this.#slot === undefined;
  }

  get _instance() {
    return this.#instance;
  }

  /** Returns the pointer to the handle. */
  get _at() {
    if (this.#slot === undefined) throw new Vt100Error(NO_OBJECT);
    return this.#slot;
  }

  /** Parses data, one chunk at a time. */
  _process(data) {
    const { library, roomPointer } = this._instance;
    this._instance.inChunks(data, (count) => {
      this._instance.check(library.vt100_process(this._at, roomPointer, BigInt(count)));
    });
  }

  /** Returns the text that a call generated, given its status. Its length is the call's first result. */
  _text(status) {
    return this._withText(status, textOf);
  }

  /** Returns what `use` returns for the memory, and the address and length in it of the text that a call generated. */
  _withText(status, use) {
    const instance = this._instance;
    instance.check(status);
    const len = instance.word;
    return instance.withRoom(len, (at) => {
      instance.library.vt100_copy(this._at, BigInt(at), BigInt(len));
      return use(instance.bytes, at, len);
    });
  }
}
