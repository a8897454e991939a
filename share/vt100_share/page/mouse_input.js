// The mouse of a viewer that may type, for programs that request its events.

import { keyText } from "./keys.js";
import { mouseBytes } from "./mouse.js";

// Programs usually scroll by about as many rows for each step of the wheel.
const ROWS_PER_STEP = 3;

const NO_MODIFIERS = { ctrlKey: false, altKey: false, shiftKey: false, metaKey: false, isComposing: false };

/** Returns a number that is at least 0 and less than `count`, as near as possible to `number`. */
function within(number, count) {
  return Math.min(Math.max(Math.floor(number), 0), count - 1);
}

/**
 * Sends the events of the mouse over a view to the program, as long as it requests them and Shift is not held: these are
 * the events that a view leaves alone if its `mouseReporting` is true. If it does not request them, the wheel sends cursor
 * keys while the program displays the alternate screen, as in xterm.
 *
 * `state()` returns the state of the screen, or null if this viewer may not type. `send(bytes)` sends a report, and
 * `focus(event)` is called when a button is pressed.
 */
export class MouseInput {
  #view;
  #state;
  #send;
  #focus;
  #isPressed = false;
  /** The last report of a motion, which is not repeated in the same cell. */
  #lastCell = null;
  #turned = 0;
  #swept = 0;

  constructor(view, { state, send, focus }) {
    [this.#view, this.#state, this.#send, this.#focus] = [view, state, send, focus];
    view.addEventListener("mousedown", (event) => this.#press(event));
    // Before the view, which would scroll back.
    view.addEventListener("wheel", (event) => this.#turn(event), { passive: false, capture: true });
    view.addEventListener("contextmenu", (event) => this.#isForProgram(event) && event.preventDefault());
    addEventListener("mousemove", (event) => this.#move(event));
    addEventListener("mouseup", (event) => this.#release(event));
  }

  /** Whether the program requests events now. While the display is scrolled back, its rows are not the program's. */
  get isReporting() {
    const state = this.#state();
    return state !== null && state.mouseProtocolMode !== 0 && state.scrollback === 0;
  }

  /** Whether the wheel sends cursor keys now. */
  get #sendsCursorKeys() {
    const state = this.#state();
    return state !== null && state.mouseProtocolMode === 0 && state.alternateScreen && state.scrollback === 0;
  }

  #isForProgram({ shiftKey }) {
    return this.isReporting && !shiftKey;
  }

  /** Returns the cell at an event, or the nearest one. */
  #cellAt({ clientX, clientY }, { rows, cols }) {
    const { left, top } = this.#view.getBoundingClientRect(), { cellWidth, cellHeight } = this.#view;
    return { row: within((clientY - top) / cellHeight, rows), col: within((clientX - left) / cellWidth, cols) };
  }

  #report(event, type = event.type) {
    const state = this.#state();
    if (state === null) return;
    const cell = this.#cellAt(event, state), key = `${cell.row} ${cell.col}`;
    if (type === "mousemove" && key === this.#lastCell) return;
    const { button, buttons, deltaX, deltaY, shiftKey, altKey, ctrlKey } = event;
    const bytes = mouseBytes({ type, button, buttons, deltaX, deltaY, shiftKey, altKey, ctrlKey }, cell, state);
    this.#lastCell = key;
    if (bytes !== null) this.#send(bytes);
  }

  #press(event) {
    if (!this.#isForProgram(event) || this.#view.cellAt(event.clientX, event.clientY) === null) return;
    // The default action would move the focus, select text, or paste.
    event.preventDefault();
    this.#focus(event);
    this.#isPressed = true;
    this.#report(event);
  }

  #move(event) {
    if (this.#isPressed || (event.target === this.#view && this.#isForProgram(event))) this.#report(event);
  }

  #release(event) {
    if (!this.#isPressed) return;
    event.preventDefault();
    this.#report(event);
    this.#isPressed = event.buttons !== 0;
  }

  /** Reports one step for each turn of a notched wheel, and for each row that a touchpad scrolls; or sends a cursor key for
      each row. */
  #turn(event) {
    const isReported = this.#isForProgram(event);
    if (event.ctrlKey || (!isReported && (event.shiftKey || !this.#sendsCursorKeys))) return;
    event.preventDefault();
    event.stopImmediatePropagation();
    const delta = event.deltaY || event.deltaX, rows = event.deltaMode === 0 ? delta / this.#view.cellHeight : delta;
    this.#turned += rows;
    const count = Math.trunc(this.#turned);
    if (count === 0) return;
    this.#turned = isReported ? 0 : this.#turned - count;
    if (isReported) this.#report(event);
    else this.#sendCursorKeys(count);
  }

  /** Sends a cursor key several times: down, or up if the number is negative. */
  #sendCursorKeys(count) {
    const state = this.#state();
    if (state === null) return;
    const key = keyText({ key: count > 0 ? "ArrowDown" : "ArrowUp", ...NO_MODIFIERS }, state);
    this.#send(key.repeat(Math.abs(count)));
  }

  /** Does what the wheel over a point does, for a finger that has moved by a number of rows: down, or up if the number is
      negative. Returns whether that is anything. */
  sweep(point, rows) {
    if (this.#sendsCursorKeys) this.#sendCursorKeys(rows);
    else if (this.isReporting) this.#reportSweep(point, rows);
    else return false;
    return true;
  }

  #reportSweep(point, rows) {
    this.#swept += rows / ROWS_PER_STEP;
    const steps = Math.trunc(this.#swept);
    this.#swept -= steps;
    const event = { button: 0, buttons: 0, deltaX: 0, deltaY: steps, shiftKey: false, altKey: false, ctrlKey: false };
    for (let step = 0; step < Math.abs(steps); step++) this.#report({ ...event, ...point }, "wheel");
  }
}
