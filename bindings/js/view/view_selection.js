import { hasEqualCells } from "./cells.js";
import { PointerSelection } from "./pointer_selection.js";
import { Selection, isSameText, lineOf, textBetween, wordAt } from "./selection.js";

/** Returns the number of the first displayed row, counted from the oldest scrollback row. */
export function topRowOf({ scrollbackLen, scrollback }) {
  return scrollbackLen - scrollback;
}

/** Throws an error unless `position` has a row and a column. */
function checkPosition(position) {
  for (const name of ["row", "col"]) {
    const value = position?.[name];
    if (typeof value !== "number") throw new TypeError(`the ${name} of a position must be a number, not ${typeof value}`);
    if (!(Number.isInteger(value) && value >= 0)) throw new RangeError(`there is no ${name} ${value}`);
  }
}

function within(number, low, high) {
  return Math.min(Math.max(number, low), high);
}

/**
 * The selection of a view, which is made by the mouse, by fingers or by a program.
 *
 * `view` has the members `screen`, the screen or null if there is none to draw; `state`, its state when it was last drawn;
 * `store`, the rows that were drawn; gridPoint(x, y), which returns a point of the window in rows and columns; draw();
 * scrollRows(count); and selectionChanged(), which is called after each change.
 */
export class ViewSelection {
  #view;
  #selection = new Selection();
  #pointer;

  constructor(view) {
    this.#view = view;
    this.#pointer = new PointerSelection({
      unitAt: (x, y, clicks) => this.#unitAt(x, y, clicks),
      rowsBeyond: (y) => this.#rowsBeyond(y),
      select: (start, end) => this.#set(start, end),
      clearSelection: () => this.clear(),
      scrollRows: (count) => view.scrollRows(count),
    });
  }

  get isEmpty() {
    return this.#selection.isEmpty;
  }

  get range() {
    return this.#selection.range;
  }

  /** The selected text. Wrapped rows are one line. */
  get text() {
    const { range } = this, { screen } = this.#view;
    return range === null || screen === null ? "" : textBetween(screen, range.start, range.end);
  }

  /** Returns the selected columns of a row, `[start, end]`, or null if there are none. */
  columnsOf(row, cols) {
    return this.#selection.columnsOf(row, cols);
  }

  select(start, end) {
    for (const position of [start, end]) checkPosition(position);
    // Otherwise, what has changed since the last drawing would clear the selection.
    this.#view.draw();
    this.#set(start, end);
  }

  #set(start, end) {
    this.#selection.set(start, end);
    this.#view.selectionChanged();
  }

  selectAll() {
    const { screen } = this.#view;
    if (screen === null) return;
    const { scrollbackLen, rows, cols } = screen.state;
    this.select({ row: 0, col: 0 }, { row: scrollbackLen + rows - 1, col: cols });
  }

  clear() {
    if (this.isEmpty) return;
    this.#selection.clear();
    this.#view.selectionChanged();
  }

  /** Clears the selection, and ends one that is being made: the rows are those of another screen. */
  reset() {
    this.clear();
    this.#pointer.reset();
  }

  /** Clears the selection if its text changes with the size of the screen, and ends one that is being made. */
  resize() {
    if (!this.#isSameText()) this.clear();
    this.#pointer.reset();
  }

  /** Returns whether the selected text is the same since the size of the screen has changed. */
  #isSameText() {
    const { screen, state, store } = this.#view;
    if (screen === null || state === null) return false;
    const before = { ...state, rowAt: (row) => store.rowAt(row) };
    const after = { ...screen.state, rowAt: (row) => screen.rowBytes(row) };
    return isSameText(this.#selection, before, after);
  }

  // ---- mouse and fingers

  /** Begins a selection at a point of the window, or extends the last one. */
  begin(point, isExtending) {
    this.#pointer.begin(point, isExtending);
  }

  /** Extends a selection to a point of the window. */
  move(point) {
    this.#pointer.move(point);
  }

  /** Ends a selection. */
  end() {
    this.#pointer.end();
  }

  /** Begins a selection with the mouse, whose movements extend it until the button is released. */
  beginWithMouse(event, isExtending) {
    this.begin(event, isExtending);
    const move = (moved) => this.move(moved);
    const end = () => {
      this.end();
      removeEventListener("mousemove", move);
      removeEventListener("mouseup", end);
    };
    addEventListener("mousemove", move);
    addEventListener("mouseup", end);
  }

  /** Returns what a click, double click or triple click at a point selects. */
  #unitAt(x, y, clicks) {
    const { screen, state, store } = this.#view, { rows, cols } = state, point = this.#view.gridPoint(x, y);
    const shown = within(Math.floor(point.row), 0, rows - 1), col = within(point.col, 0, cols);
    const row = shown + topRowOf(state);
    if (clicks === 1) {
      const position = { row, col: Math.round(col) };
      return { start: position, end: position };
    }
    if (clicks === 2) {
      const { start, end } = wordAt(store.rowAt(shown), cols, Math.floor(col));
      return { start: { row, col: start }, end: { row, col: end } };
    }
    const { first, last } = lineOf(screen, row);
    return { start: { row: first, col: 0 }, end: { row: last, col: cols } };
  }

  /** Returns by how many rows a point of the window is below the rows, or above them if the number is negative. */
  #rowsBeyond(y) {
    const { row } = this.#view.gridPoint(0, y);
    return row < 0 ? Math.floor(row) : Math.ceil(Math.max(row - this.#view.state.rows, 0));
  }

  // ---- changes of the screen

  /** Clears the selection if its text may have changed since the state `before`. */
  dropIfStale(before) {
    const { state } = this.#view, { alternateScreen, scrollbackLen, scrollbackCapacity } = state;
    if (this.isEmpty || before.rows !== state.rows || before.cols !== state.cols) return;
    const isOther = before.alternateScreen !== alternateScreen || scrollbackLen < before.scrollbackLen;
    // Once scrollback is full, rows are dropped, and the numbers of the others change.
    const isUncertain = scrollbackLen === scrollbackCapacity && !this.#isDisplayed(state);
    if (isOther || isUncertain || this.#hasChanged(before)) this.clear();
  }

  #isDisplayed(state) {
    const { start, end } = this.range, top = topRowOf(state);
    return start.row >= top && end.row < top + state.rows;
  }

  /** Returns whether selected cells that were and are displayed have changed. */
  #hasChanged(before) {
    const { state, store } = this.#view, top = topRowOf(state), moved = top - topRowOf(before);
    for (let row = 0; row < state.rows; row++) {
      const columns = this.columnsOf(row + top, state.cols), earlier = row + moved;
      if (columns === null || earlier < 0 || earlier >= state.rows) continue;
      if (!hasEqualCells(store.rowAt(row), store.rowBefore(earlier), ...columns)) return true;
    }
    return false;
  }
}
