import { CELL_SIZE } from "./cells.js";

/**
 * The rows that a view has drawn. Each view has its own store, so that several views can draw the same screen.
 * Screen.dirty returns a changed row only once, whichever view asks.
 */
export class RowStore {
  #rows = 0;
  #cols = 0;
  #now = new Uint8Array(0);
  #before = new Uint8Array(0);

  /** The number of columns that were last read. */
  get cols() {
    return this.#cols;
  }

  /** Forgets all rows, so that the next call to `read` returns all of them. */
  clear() {
    this.#rows = 0;
  }

  /** Reads the displayed rows of a screen, and returns the set of those that differ from the last ones read. */
  read(screen, { rows, cols }) {
    const isNew = rows !== this.#rows || cols !== this.#cols, len = CELL_SIZE * cols;
    if (isNew) {
      [this.#rows, this.#cols] = [rows, cols];
      this.#now = new Uint8Array(rows * len);
      this.#before = new Uint8Array(rows * len);
    }
    [this.#now, this.#before] = [this.#before, this.#now];
    const now = new Int32Array(this.#now.buffer), before = new Int32Array(this.#before.buffer), changed = new Set();
    for (let row = 0; row < rows; row++) {
      screen.rowBytes(row, this.rowAt(row));
      let at = row * len / 4;
      const end = at + len / 4;
      if (!isNew) while (at < end && now[at] === before[at]) at++;
      if (at < end) changed.add(row);
    }
    return changed;
  }

  /** Returns the records of a row. The array is reused by later calls to `read`. */
  rowAt(row) {
    const len = CELL_SIZE * this.#cols;
    return this.#now.subarray(row * len, (row + 1) * len);
  }

  /** Returns the records that a row had before the last call to `read`. */
  rowBefore(row) {
    const len = CELL_SIZE * this.#cols;
    return this.#before.subarray(row * len, (row + 1) * len);
  }
}
