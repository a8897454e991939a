// Mirrors: a terminal and its viewers.

import { optionsAmong, rowCount, sizeInRange, viewerInRange } from "./errors.js";
import { Handle } from "./handle.js";
import { diffOptions } from "./options.js";

/** A terminal that remembers, for each of its viewers, the screen of the last update. */
export class Mirror extends Handle {
  constructor(instance, rows = 24, cols = 80, options = {}) {
    const size = sizeInRange(rows, cols);
    const { scrollback = 0 } = optionsAmong(["scrollback"], options);
    const capacity = rowCount("scrollback", scrollback);
    super(instance, (out) => instance.library.vt100_mirror_new(...size, capacity, out));
  }

  process(data) {
    this._process(data);
  }

  get isGround() {
    this.#call("vt100_is_ground", this._instance.first);
    return this._instance.flag;
  }

  setSize(rows, cols) {
    this.#call("vt100_set_size", ...sizeInRange(rows, cols));
  }

  join() {
    const instance = this._instance;
    this.#call("vt100_join", instance.first);
    return instance.view.getBigUint64(instance.results, true);
  }

  leave(viewer) {
    this.#call("vt100_leave", viewerInRange(viewer));
  }

  update(viewer) {
    return this.#update("vt100_update", viewer);
  }

  updateScrolling(viewer) {
    return this.#update("vt100_update_scrolling", viewer);
  }

  updateWith(viewer, options) {
    return this.#update("vt100_update_with", viewer, diffOptions(options));
  }

  isCurrent(viewer) {
    this.#call("vt100_mirror_is_current", viewerInRange(viewer), this._instance.first);
    return this._instance.flag;
  }

  /** Calls a function of the library that takes this mirror first. */
  #call(name, ...words) {
    this._instance.check(this._instance.library[name](this._at, ...words));
  }

  /** Returns the update that a function generates. */
  #update(name, viewer, ...options) {
    const instance = this._instance;
    const { first, second, third } = instance;
    this.#call(name, viewerInRange(viewer), ...options, second, third, first);
    const rows = instance.view.getUint16(instance.results + 8, true);
    const cols = instance.view.getUint16(instance.results + 16, true);
    return { text: this._text(0), size: rows === 0 ? null : { rows, cols } };
  }
}
