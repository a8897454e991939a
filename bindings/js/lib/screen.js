// Screens.

import { inU16, isU16, rowCount, sizeInRange } from "./errors.js";
import { patternOf, placesOf } from "./find.js";
import { Handle } from "./handle.js";
import { History } from "./history.js";
import { ROOM, textOf, wordOf } from "./instance.js";
import { htmlOf, svgOf } from "./markup.js";
import { diffOptions, redrawOptions } from "./options.js";
import { CELL_SIZE, Cell, PROPERTIES, cellsOf, stateOf } from "./records.js";

const BAD_ARGUMENT = 3;
const MAX_WIDTH = 0xffff;

/** Returns `out`, to which the records are copied, or a copy of them if it is undefined. */
function copyTo(out, records) {
  if (out === undefined) return records.slice();
  if (!(out instanceof Uint8Array)) throw new TypeError("the records are copied to a Uint8Array only");
  out.set(records);
  return out;
}

/** A screen, which belongs to a parser or is a copy of one. */
export class Screen extends Handle {
  /** The records of all rows when `dirty` was last called. */
  #seen;

  save() {
    return new Screen(this._instance, (out) => this._instance.library.vt100_save(this._at, out));
  }

  shownCopy() {
    return new Screen(this._instance, (out) => this._instance.library.vt100_shown_copy(this._at, out));
  }

  swap(other) {
    this.#checkScreen(other);
    if (other !== this) this.#call("vt100_swap", other._at);
  }

  setSize(rows, cols) {
    this.#call("vt100_screen_set_size", ...sizeInRange(rows, cols));
  }

  setScrollback(rows) {
    this.#call("vt100_set_scrollback", rowCount("rows", rows));
  }

  clearScrollback() {
    this.#call("vt100_clear_scrollback");
  }

  get state() {
    // Not in the room, which may hold input that is not parsed yet.
    this.#call("vt100_get_state", this._instance.first);
    return stateOf(this._instance.bytes, this._instance.view, this._instance.results);
  }

  get size() {
    const { rows, cols } = this.state;
    return { rows, cols };
  }

  get cursor() {
    const { cursorRow, cursorCol } = this.state;
    return { row: cursorRow, col: cursorCol };
  }

  cell(row, col) {
    const instance = this._instance;
    const at = this._at;
    const isCell = isU16("row", row) && isU16("col", col);
    if (!isCell) return undefined;
    const status = instance.library.vt100_get_cell(at, row, col, instance.roomPointer);
    if (status === BAD_ARGUMENT) return undefined;
    instance.check(status);
    return new Cell(instance.bytes, instance.room);
  }

  cells(row) {
    return this.#withRow(row, this.size.cols, cellsOf);
  }

  rowBytes(row, out) {
    return this.#withRow(row, this.size.cols, (bytes, at, cols) => copyTo(out, bytes.subarray(at, at + CELL_SIZE * cols)));
  }

  allCells() {
    const { rows, cols } = this.size;
    return this.#withAll(rows, cols, (bytes, at) =>
      Array.from({ length: rows }, (_, row) => cellsOf(bytes, at + CELL_SIZE * cols * row, cols)),
    );
  }

  allBytes(out) {
    const { rows, cols } = this.size;
    return this.#withAll(rows, cols, (bytes, at) => copyTo(out, bytes.subarray(at, at + CELL_SIZE * rows * cols)));
  }

  /** Returns what `use` returns for the memory and the address of the records of all rows. */
  #withAll(rows, cols, use) {
    const instance = this._instance;
    return instance.withRoom(CELL_SIZE * rows * cols, (at) => {
      instance.check(instance.library.vt100_get_all_cells(this._at, BigInt(at), BigInt(rows * cols)));
      return use(instance.bytes, at);
    });
  }

  /** Returns what `use` returns for the memory, and the address and number of the records of a row. */
  #withRow(row, cols, use) {
    const instance = this._instance;
    inU16("row", row);
    return instance.withRoom(CELL_SIZE * cols, (at) => {
      instance.check(instance.library.vt100_get_cells(this._at, row, BigInt(at), BigInt(cols)));
      return use(instance.bytes, at, cols);
    });
  }

  dirty() {
    const { rows, cols } = this.size;
    const isNew = this.#seen?.rows !== rows || this.#seen.cols !== cols;
    if (isNew) this.#seen = { rows, cols, records: new Uint8Array(CELL_SIZE * rows * cols) };
    const changed = new Map();
    for (let row = 0; row < rows; row++) {
      const seen = this.#seen.records.subarray(CELL_SIZE * cols * row, CELL_SIZE * cols * (row + 1));
      if (this.#update(row, cols, seen) || isNew) changed.set(row, seen);
    }
    return changed;
  }

  /** Copies the records of a row to `seen`, and returns whether they differ from what was there. */
  #update(row, cols, seen) {
    return this.#withRow(row, cols, (bytes, at) => {
      // Records are compared as words of 4 bytes, which is 4 times as fast.
      const count = seen.length / 4;
      const old = new Int32Array(seen.buffer, seen.byteOffset, count);
      const now = new Int32Array(bytes.buffer, at, count);
      let same = 0;
      while (same < count && now[same] === old[same]) same++;
      if (same === count) return false;
      old.set(now);
      return true;
    });
  }

  rowWrapped(row) {
    this.#call("vt100_row_wrapped", inU16("row", row), this._instance.first);
    return this._instance.flag;
  }

  get history() {
    return new History(this);
  }

  keptRow(row) {
    const instance = this._instance;
    const index = rowCount("row", row);
    const read = (room) => (at) => {
      const out = [BigInt(at), BigInt(room), instance.first, instance.second];
      const status = instance.library.vt100_get_row_cells(this._at, index, ...out);
      if (status === BAD_ARGUMENT) return undefined;
      instance.check(status);
      const count = instance.word;
      if (count > room) return instance.withRoom(CELL_SIZE * count, read(count));
      return { cells: cellsOf(instance.bytes, at, count), wrapped: instance.bytes[instance.results + 8] === 1 };
    };
    return instance.withRoom(ROOM, read(Math.floor(ROOM / CELL_SIZE)));
  }

  isSteady() {
    this.#call("vt100_is_steady", this._instance.first);
    return this._instance.flag;
  }

  // Text

  contents() {
    return this.#textBy("vt100_contents");
  }

  contentsBetween(startRow, startCol, endRow, endCol) {
    const start = [inU16("startRow", startRow), inU16("startCol", startCol)];
    const end = [inU16("endRow", endRow), inU16("endCol", endCol)];
    return this.#textBy("vt100_contents_between", ...start, ...end);
  }

  keptText(row) {
    const instance = this._instance;
    const status = instance.library.vt100_row_contents(this._at, rowCount("row", row), instance.first);
    return status === BAD_ARGUMENT ? undefined : this._text(status);
  }

  rows(start = 0, width = MAX_WIDTH) {
    return this.#rowTexts("vt100_rows", [], start, width);
  }

  find(text) {
    const pattern = patternOf(text), { rows, cols } = this.size;
    const wrapped = Array.from({ length: rows }, (_, row) => this.rowWrapped(row));
    return placesOf(pattern, this.rows(0, cols), wrapped, (row) => this.cells(row));
  }

  toHtml(options) {
    return htmlOf(this, options);
  }

  toSvg(options) {
    return svgOf(this, options);
  }

  // Escape sequences

  contentsFormatted() {
    return this.#textBy("vt100_contents_formatted");
  }

  contentsFormattedWith(options) {
    return this.#textBy("vt100_contents_formatted_with", redrawOptions(options));
  }

  contentsFormattedReset() {
    return this.#textBy("vt100_contents_formatted_reset");
  }

  contentsFormattedBasic() {
    return this.#textBy("vt100_contents_formatted_basic");
  }

  stateFormatted() {
    return this.#textBy("vt100_state_formatted");
  }

  stateFormattedWith(options) {
    return this.#textBy("vt100_state_formatted_with", redrawOptions(options));
  }

  cursorStateFormatted() {
    return this.#textBy("vt100_cursor_state_formatted");
  }

  attributesFormatted() {
    return this.#textBy("vt100_attributes_formatted");
  }

  inputModeFormatted() {
    return this.#textBy("vt100_input_mode_formatted");
  }

  rowsFormatted(start = 0, width = MAX_WIDTH) {
    return this.#rowTexts("vt100_rows_formatted", [], start, width);
  }

  contentsDiff(prev) {
    return this.#diff(prev, (other) => this.#textBy("vt100_contents_diff", other));
  }

  contentsDiffScrolling(prev) {
    return this.#diff(prev, (other) => this.#textBy("vt100_contents_diff_scrolling", other));
  }

  contentsDiffWith(prev, options) {
    const bits = diffOptions(options);
    return this.#diff(prev, (other) => this.#textBy("vt100_contents_diff_with", other, bits));
  }

  stateDiff(prev) {
    return this.#diff(prev, (other) => this.#textBy("vt100_state_diff", other));
  }

  stateDiffWith(prev, options) {
    const bits = diffOptions(options);
    return this.#diff(prev, (other) => this.#textBy("vt100_state_diff_with", other, bits));
  }

  inputModeDiff(prev) {
    return this.#diff(prev, (other) => this.#textBy("vt100_input_mode_diff", other));
  }

  rowsDiff(prev, start = 0, width = MAX_WIDTH) {
    return this.#diff(prev, (other) => this.#rowTexts("vt100_rows_diff", [other], start, width));
  }

  /** Calls a function of the library that takes this screen first. */
  #call(name, ...words) {
    this._instance.check(this._instance.library[name](this._at, ...words));
  }

  /** Returns the text that a function generates. */
  #textBy(name, ...words) {
    return this._text(this._instance.library[name](this._at, ...words, this._instance.first));
  }

  /** Returns what `make` returns for `prev`, or for a copy if `prev` is this screen: no call takes a handle twice. */
  #diff(prev, make) {
    this.#checkScreen(prev);
    if (prev !== this) return make(prev._at);
    const copy = this.save();
    try {
      return make(copy._at);
    } finally {
      copy.free();
    }
  }

  /** Throws an error unless `other` is a screen in the memory of this one. */
  #checkScreen(other) {
    if (!(other instanceof Screen)) throw new TypeError("a Screen or a Parser is required");
    if (other._instance !== this._instance) {
      throw new TypeError("the screens are of two modules: call load() only once");
    }
  }

  /** Returns the text that a function generates for each row. */
  #rowTexts(name, before, start, width) {
    const instance = this._instance;
    const { rows } = this.size;
    const range = [inU16("start", start), inU16("width", width)];
    const ends = instance.withRoom(8 * rows, (at) => {
      this.#call(name, ...before, ...range, BigInt(at), BigInt(rows), instance.first);
      return Array.from({ length: rows }, (_, row) => wordOf(instance.view, at + 8 * row));
    });
    const starts = [0, ...ends];
    return this._withText(0, (bytes, at) => ends.map((end, row) => textOf(bytes, at + starts[row], end - starts[row])));
  }
}

for (const name of PROPERTIES) {
  Object.defineProperty(Screen.prototype, name, {
    get() {
      return this.state[name];
    },
    configurable: true,
  });
}
