import { inRange, optionsAmong } from "../lib/errors.js";

const OUT_OF_MEMORY = 1;

/**
 * Screens saved while a recording is played, from which playing can resume. Each has the index of the next event. The
 * distance between two of them, in characters of output, doubles whenever there are too many screens.
 */
export class Keyframes {
  #frames = [];
  #interval;
  #limit;

  constructor(options = {}) {
    const { interval = 65536, limit = 32 } = optionsAmong(["interval", "limit"], options);
    this.#interval = inRange("interval", interval, 1, Number.MAX_SAFE_INTEGER);
    this.#limit = inRange("limit", limit, 1, Number.MAX_SAFE_INTEGER);
  }

  /** The number of saved screens. */
  get length() {
    return this.#frames.length;
  }

  /** Saves the screen before the event `index`, unless a later screen or one shortly before is already saved. `position`
      is the number of characters of output before the event. */
  offer(screen, index, position) {
    const last = this.#frames.at(-1);
    if (last !== undefined && (index <= last.index || position < last.position + this.#interval)) return;
    try {
      this.#frames.push({ screen: screen.save(), index, position });
    } catch (error) {
      if (error.status !== OUT_OF_MEMORY || last === undefined) throw error;
      this.#thin();
      return;
    }
    if (this.#frames.length > this.#limit) this.#thin();
  }

  /** Frees every other screen, but not the first. */
  #thin() {
    this.#interval *= 2;
    this.#frames = this.#frames.filter((frame, k) => {
      if (k % 2 === 1) frame.screen.free();
      return k % 2 === 0;
    });
  }

  /** Returns the last saved screen at or before the event `index`, as `{ screen, index, position }`. */
  before(index) {
    return this.#frames.filter((frame) => frame.index <= index).at(-1);
  }

  /** Frees all screens. */
  free() {
    for (const { screen } of this.#frames) screen.free();
    this.#frames = [];
  }
}
