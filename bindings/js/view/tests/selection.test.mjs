import assert from "node:assert/strict";
import { test } from "node:test";
import { CONTINUATION, WIDE } from "../cells.js";
import { Selection, lineOf, textBetween, wordAt } from "../selection.js";
import { row } from "./lib/records.mjs";

/** A stand-in for a Screen that holds lines of text, some of them wrapped, of which the last ones are the page. */
class TextScreen {
  #lines;
  #rows;
  #cols;
  #scrollback = 0;

  /** `lines` are strings. A line that ends with `>` is wrapped. */
  constructor(lines, rows, cols) {
    this.#lines = lines;
    this.#rows = rows;
    this.#cols = cols;
  }

  get state() {
    const scrollbackLen = this.#lines.length - this.#rows;
    return { rows: this.#rows, cols: this.#cols, scrollback: this.#scrollback, scrollbackLen };
  }

  setScrollback(rows) {
    this.#scrollback = Math.min(rows, this.state.scrollbackLen);
  }

  #line(row) {
    return this.#lines[row + this.state.scrollbackLen - this.#scrollback];
  }

  rowWrapped(row) {
    return this.#line(row).endsWith(">");
  }

  /** A cell of `_` is the continuation of a wide character. */
  cell(row, col) {
    return col < this.#cols ? { wideContinuation: this.#line(row)[col] === "_" } : undefined;
  }

  contentsBetween(startRow, startCol, endRow, endCol) {
    let text = "";
    for (let row = startRow; row <= endRow; row++) {
      const line = this.#line(row).replace(/>$/, "");
      text += line.slice(row === startRow ? startCol : 0, row === endRow ? endCol : undefined).replaceAll("_", "");
      if (row < endRow && !this.rowWrapped(row)) text += "\n";
    }
    return text;
  }
}

test("the range of a selection is in order, and its end is excluded", () => {
  const selection = new Selection();
  assert.equal(selection.range, null);
  selection.set({ row: 3, col: 2 }, { row: 1, col: 4 });
  assert.deepEqual(selection.range, { start: { row: 1, col: 4 }, end: { row: 3, col: 2 } });
  assert.deepEqual([0, 1, 2, 3, 4].map((at) => selection.columnsOf(at, 10)), [null, [4, 10], [0, 10], [0, 2], null]);
  selection.set({ row: 1, col: 4 }, { row: 2, col: 0 });
  assert.equal(selection.columnsOf(2, 10), null);
  selection.set({ row: 1, col: 4 }, { row: 1, col: 4 });
  assert.equal(selection.isEmpty, true);
  selection.clear();
  assert.equal(selection.range, null);
});

test("words", () => {
  const records = row(..."ls ~/a-b.txt (c)", { text: "日", flags: WIDE }, { flags: CONTINUATION }, "");
  const word = (col) => Object.values(wordAt(records, 19, col));
  assert.deepEqual(word(0), [0, 2]);
  assert.deepEqual(word(2), [2, 3]);
  assert.deepEqual(word(7), [3, 12]);
  assert.deepEqual(word(13), [13, 14]);
  assert.deepEqual(word(17), [16, 18]);
  assert.deepEqual(word(40), [18, 19]);
});

// Three rows of scrollback and a page of two rows. `>` ends a wrapped row, and `_` is half a wide character.
const LINES = ["zero", "one>", "two", "dr日_i", "four"];
const screenOf = () => new TextScreen(LINES, 2, 5);
const textOf = (start, end) => textBetween(screenOf(), { row: start[0], col: start[1] }, { row: end[0], col: end[1] });

test("the text of a selection joins wrapped rows, also between two windows of the scrollback", () => {
  assert.equal(textOf([0, 0], [4, 5]), "zero\nonetwo\ndr日i\nfour");
  assert.equal(textOf([1, 1], [2, 2]), "netw");
  assert.equal(textOf([0, 2], [0, 4]), "ro");
  assert.equal(textOf([2, 0], [9, 1]), "two\ndr日i\nfour");
});

test("the text of a selection has whole wide characters", () => {
  assert.equal(textOf([3, 3], [3, 5]), "日i");
  assert.equal(textOf([3, 0], [3, 3]), "dr日");
});

test("reading the text of a selection leaves the display where it was", () => {
  const screen = screenOf();
  screen.setScrollback(2);
  textBetween(screen, { row: 0, col: 0 }, { row: 4, col: 5 });
  assert.equal(screen.state.scrollback, 2);
  screen.contentsBetween = () => { throw new Error("no"); };
  assert.throws(() => textBetween(screen, { row: 0, col: 0 }, { row: 4, col: 5 }));
  assert.equal(screen.state.scrollback, 2);
});

test("lines of wrapped rows", () => {
  const screen = screenOf();
  screen.setScrollback(1);
  assert.deepEqual([0, 1, 2, 3].map((at) => Object.values(lineOf(screen, at))), [[0, 0], [1, 2], [1, 2], [3, 3]]);
  assert.equal(screen.state.scrollback, 1);
});
