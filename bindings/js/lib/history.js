// The scrollback of a screen as a sequence of rows.

/** Returns the index that `index` stands for in a sequence: negative ones count from the end. */
function placeOf(name, index, length) {
  if (typeof index !== "number") throw new TypeError(`${name} must be a number, not ${typeof index}`);
  if (!Number.isInteger(index) && Math.abs(index) !== Infinity) throw new RangeError(`${name} must be an integer, not ${index}`);
  return index < 0 ? length + index : index;
}

/** The rows of scrollback of a screen, from the oldest to the latest one. */
export class History {
  #screen;

  constructor(screen) {
    this.#screen = screen;
  }

  get length() {
    return this.#screen.scrollbackLen;
  }

  at(index) {
    const length = this.length, row = placeOf("index", index, length);
    return row >= 0 && row < length ? this.#screen.keptRow(row) : undefined;
  }

  slice(start, end) {
    return this.#range(start, end, (row) => this.#screen.keptRow(row));
  }

  rows(start, end) {
    return this.#range(start, end, (row) => this.#screen.keptText(row));
  }

  *[Symbol.iterator]() {
    for (let row = 0; row < this.length; row++) yield this.#screen.keptRow(row);
  }

  /** Returns what `read` returns for each row from `start` up to but excluding `end`. */
  #range(start = 0, end = Infinity, read) {
    const length = this.length;
    const first = Math.max(placeOf("start", start, length), 0), last = Math.min(placeOf("end", end, length), length);
    return Array.from({ length: Math.max(last - first, 0) }, (_, k) => read(first + k));
  }
}
