const SCROLL_INTERVAL = 50;

/** Returns whether one position is before another. */
function isBefore(left, right) {
  return left.row < right.row || (left.row === right.row && left.col < right.col);
}

/**
 * Selects text with the mouse: characters by dragging, words by a double click, lines by a triple click. A click with
 * Shift extends the selection. While the mouse is above or below the rows, the display scrolls.
 *
 * `target` has the methods unitAt(x, y, clicks), which returns the `{ start, end }` of the character position, word or
 * line at a point, rowsBeyond(y), select(start, end), clearSelection() and scrollRows(count).
 */
export class PointerSelection {
  #target;
  #anchor = null;
  #clicks = 1;
  #point = { x: 0, y: 0 };
  #timer = null;

  constructor(target) {
    this.#target = target;
  }

  /** Begins a selection, or extends the last one. */
  begin({ clientX: x, clientY: y, detail }, isExtending) {
    this.#point = { x, y };
    if (!isExtending || this.#anchor === null) {
      this.#clicks = Math.min(Math.max(detail, 1), 3);
      this.#anchor = this.#target.unitAt(x, y, this.#clicks);
      this.#target.clearSelection();
    }
    this.#extend();
  }

  /** Extends the selection to a point. */
  move({ clientX: x, clientY: y }) {
    if (this.#anchor === null) return;
    this.#point = { x, y };
    this.#extend();
    if (this.#target.rowsBeyond(y) === 0) this.#stopScrolling();
    else this.#timer ??= setInterval(() => this.#scroll(), SCROLL_INTERVAL);
  }

  /** Forgets where the last selection began, so that it cannot be extended. */
  reset() {
    this.#stopScrolling();
    this.#anchor = null;
  }

  /** Ends a selection, which a click with Shift can still extend. */
  end() {
    this.#stopScrolling();
  }

  #stopScrolling() {
    clearInterval(this.#timer);
    this.#timer = null;
  }

  #scroll() {
    this.#target.scrollRows(-this.#target.rowsBeyond(this.#point.y));
    this.#extend();
  }

  /** Selects from where the selection began to the point. */
  #extend() {
    const { start, end } = this.#target.unitAt(this.#point.x, this.#point.y, this.#clicks), anchor = this.#anchor;
    if (isBefore(start, anchor.start)) this.#target.select(anchor.end, start);
    else this.#target.select(anchor.start, isBefore(end, anchor.end) ? anchor.end : end);
  }
}
