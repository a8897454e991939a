import { CONTINUATION, flagsAt, hasEqualCells, textAt } from "./cells.js";

const SEPARATOR = /^$|[\s()[\]{}<>'"`,;|│]/;

/** Returns a negative number if `left` is before `right`, 0 if they are equal, and otherwise a positive number. */
function compare(left, right) {
  return left.row - right.row || left.col - right.col;
}

/**
 * Returns the columns of the word at a column of a row, as `{ start, end }`. A separator is a word by itself.
 */
export function wordAt(records, cols, col) {
  const isInWord = (at) => Boolean(flagsAt(records, at) & CONTINUATION) || !SEPARATOR.test(textAt(records, at));
  let start = Math.min(col, cols - 1), end = start + 1;
  if (!isInWord(start)) return { start, end };
  while (start > 0 && isInWord(start - 1)) start--;
  while (end < cols && isInWord(end)) end++;
  return { start, end };
}

/**
 * A selection: the text between two positions. Rows are counted from the oldest scrollback row, so that a selection
 * stays with its text while the display is scrolled. A column is the number of columns left of the position.
 */
export class Selection {
  #anchor = null;
  #head = null;

  get isEmpty() {
    return this.#anchor === null || compare(this.#anchor, this.#head) === 0;
  }

  /** The start and the end, of which the end is excluded, or null if nothing is selected. */
  get range() {
    if (this.isEmpty) return null;
    const isForward = compare(this.#anchor, this.#head) < 0;
    return isForward ? { start: this.#anchor, end: this.#head } : { start: this.#head, end: this.#anchor };
  }

  /** Selects the text between two positions, in any order. */
  set(anchor, head) {
    this.#anchor = { row: anchor.row, col: anchor.col };
    this.#head = { row: head.row, col: head.col };
  }

  clear() {
    this.#anchor = this.#head = null;
  }

  /** Returns the selected columns of a row, `[start, end]`, or null if there are none. */
  columnsOf(row, cols) {
    const range = this.range;
    if (range === null || row < range.start.row || row > range.end.row) return null;
    const start = row === range.start.row ? range.start.col : 0, end = row === range.end.row ? range.end.col : cols;
    return start < end ? [start, end] : null;
  }
}

/**
 * Returns whether the text of a selection is the same before and after a screen has got another size. Each is the state of
 * the screen with `rowAt(row)`, which returns the records of a displayed row. Rows of scrollback do not change.
 */
export function isSameText(selection, before, after) {
  const { range } = selection, { scrollbackLen } = after;
  if (range === null || before.scrollbackLen !== scrollbackLen) return false;
  for (let row = Math.max(range.start.row, scrollbackLen); row <= range.end.row; row++) {
    const columns = selection.columnsOf(row, before.cols), page = row - scrollbackLen;
    const old = page + before.scrollback, now = page + after.scrollback;
    if (columns === null) continue;
    if (old >= before.rows || now >= after.rows) return false;
    if (!hasSameColumns(before.rowAt(old), after.rowAt(now), columns, after.cols)) return false;
  }
  return true;
}

/** Returns whether columns of a row are the same in a row that has `cols` columns. Columns that were cut off must be blank. */
function hasSameColumns(old, now, [start, end], cols) {
  if (!hasEqualCells(old, now, start, Math.min(end, cols))) return false;
  for (let col = Math.max(start, cols); col < end; col++) if (textAt(old, col).trim() !== "") return false;
  return true;
}

/** Returns the column at which the character that a position would split begins, or ends if `toEnd` is true. */
function wholeCharacter(screen, row, col, toEnd) {
  if (!screen.cell(row, col)?.wideContinuation) return col;
  return toEnd ? col + 1 : col - 1;
}

/**
 * Returns the plain text from the position `start` up to but excluding `end`, with wrapped rows joined. Rows are counted
 * from the oldest scrollback row. The screen is scrolled to read rows that are not displayed, and then scrolled back.
 */
export function textBetween(screen, start, end) {
  const { rows, cols, scrollback, scrollbackLen } = screen.state;
  const lastRow = Math.min(end.row, scrollbackLen + rows - 1), endCol = lastRow === end.row ? end.col : cols;
  let text = "";
  try {
    for (let row = Math.max(start.row, 0); row <= lastRow;) {
      const top = Math.min(row, scrollbackLen), last = Math.min(lastRow, top + rows - 1);
      screen.setScrollback(scrollbackLen - top);
      const from = row === start.row ? wholeCharacter(screen, row - top, start.col, false) : 0;
      const to = last === lastRow ? wholeCharacter(screen, last - top, endCol, true) : cols;
      text += screen.contentsBetween(row - top, from, last - top, to);
      if (last < lastRow && !screen.rowWrapped(last - top)) text += "\n";
      row = last + 1;
    }
  } finally {
    screen.setScrollback(scrollback);
  }
  return text;
}

/** Returns the first and the last of the rows that belong to one line with a row, because they are wrapped. */
export function lineOf(screen, row) {
  const { rows, scrollback, scrollbackLen } = screen.state;
  const isWrapped = (at) => {
    const top = Math.min(at, scrollbackLen);
    screen.setScrollback(scrollbackLen - top);
    return screen.rowWrapped(at - top);
  };
  let first = row, last = row;
  try {
    while (first > 0 && isWrapped(first - 1)) first--;
    while (last < scrollbackLen + rows - 1 && isWrapped(last)) last++;
  } finally {
    screen.setScrollback(scrollback);
  }
  return { first, last };
}
