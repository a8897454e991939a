const LONG_PRESS = 500; // milliseconds
const SLOP = 6; // pixels

/**
 * Reacts to fingers on an element: one that moves up or down scrolls, and one that stays for a while selects a word, and
 * further words if it then moves.
 *
 * `target` has the members isActive; cellHeight; canScroll(count), whether the display can be scrolled back by a number of
 * rows, or forward if it is negative; scrollRows(count); and begin(point), move(point) and end() of a selection. Where
 * nothing can be scrolled, the page scrolls.
 */
export class TouchInput {
  #target;
  #mode = "none";
  #start = null;
  #last = null;
  #timer = null;
  #rest = 0;

  constructor(element, target) {
    this.#target = target;
    element.addEventListener("touchstart", (event) => this.#begin(event), { passive: true });
    element.addEventListener("touchmove", (event) => this.#move(event), { passive: false });
    for (const type of ["touchend", "touchcancel"]) element.addEventListener(type, () => this.#end());
  }

  #begin({ touches }) {
    this.#end();
    if (!this.#target.isActive || touches.length !== 1) return;
    const { clientX, clientY } = touches[0];
    this.#start = this.#last = { clientX, clientY, detail: 2 };
    this.#rest = 0;
    this.#timer = setTimeout(() => {
      this.#mode = "select";
      this.#target.begin(this.#start);
    }, LONG_PRESS);
  }

  #move(event) {
    if (this.#start === null) return;
    const { clientX, clientY } = event.touches[0], point = { clientX, clientY };
    if (this.#mode === "none") this.#mode = this.#modeOf(point);
    if (this.#mode === "select" || this.#mode === "scroll") event.preventDefault();
    if (this.#mode === "select") this.#target.move(point);
    if (this.#mode === "scroll") this.#scrollBy(clientY - this.#last.clientY);
    if (this.#mode !== "none") this.#last = point;
  }

  /** Returns what a finger does that has moved to a point: it scrolls the display or the page, or is still undecided. */
  #modeOf({ clientX, clientY }) {
    const across = Math.abs(clientX - this.#start.clientX), down = clientY - this.#start.clientY;
    if (Math.max(across, Math.abs(down)) < SLOP) return "none";
    clearTimeout(this.#timer);
    return Math.abs(down) > across && this.#target.canScroll(Math.sign(down)) ? "scroll" : "page";
  }

  /** Scrolls by a distance in pixels: by whole rows, and later by the rest. */
  #scrollBy(distance) {
    const rows = this.#rest + distance / this.#target.cellHeight, count = Math.trunc(rows);
    this.#rest = rows - count;
    if (count !== 0) this.#target.scrollRows(count);
  }

  #end() {
    clearTimeout(this.#timer);
    if (this.#mode === "select") this.#target.end();
    this.#mode = "none";
    this.#start = null;
  }
}
