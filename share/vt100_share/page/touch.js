// Scrolling by touch.

const FRICTION = 0.004; // per millisecond
const SLOWEST = 0.02; // pixels per millisecond

/**
 * Calls `scroll(rows, point)` while one finger moves over a view, and for a while afterward if it was fast. `rows` is
 * negative if the finger moves down, toward earlier rows; `point` has `clientX` and `clientY`. Two fingers zoom the page;
 * while it is zoomed, one finger moves the page instead.
 */
export class TouchScrolling {
  #view;
  #scroll;
  #finger = null;
  #point = null;
  #time = 0;
  #speed = 0;
  #moved = 0;

  constructor(view, scroll) {
    [this.#view, this.#scroll] = [view, scroll];
    view.touchInput = false;
    view.addEventListener("pointerdown", (event) => this.#down(event));
    view.addEventListener("pointermove", (event) => this.#move(event));
    view.addEventListener("pointerup", (event) => this.#up(event));
    view.addEventListener("pointercancel", (event) => this.#up(event));
    globalThis.visualViewport?.addEventListener("resize", () => this.#adapt());
    this.#adapt();
  }

  /** Lets the browser handle one finger while the page is zoomed. */
  #adapt() {
    const isZoomed = (globalThis.visualViewport?.scale ?? 1) > 1.01;
    this.#view.style.setProperty("touch-action", isZoomed ? "auto" : "pinch-zoom");
  }

  #down(event) {
    this.#speed = 0;
    if (event.pointerType !== "touch" || !event.isPrimary) return;
    this.#finger = event.pointerId;
    this.#point = { clientX: event.clientX, clientY: event.clientY };
    this.#time = event.timeStamp;
    this.#moved = 0;
  }

  #move({ pointerId, clientY, timeStamp }) {
    if (pointerId !== this.#finger) return;
    const distance = this.#point.clientY - clientY, elapsed = Math.max(timeStamp - this.#time, 1);
    this.#speed = 0.5 * this.#speed + 0.5 * distance / elapsed;
    this.#point.clientY = clientY;
    this.#time = timeStamp;
    this.#scrollBy(distance);
  }

  #up({ pointerId, type, timeStamp }) {
    if (pointerId !== this.#finger) return;
    this.#finger = null;
    if (type === "pointercancel" || timeStamp - this.#time > 50) this.#speed = 0;
    this.#coast(performance.now());
  }

  /** Scrolls on, more and more slowly. */
  #coast(before) {
    if (Math.abs(this.#speed) < SLOWEST) return;
    requestAnimationFrame((now) => {
      const elapsed = Math.max(now - before, 0);
      this.#scrollBy(this.#speed * elapsed);
      this.#speed *= Math.exp(-FRICTION * elapsed);
      this.#coast(now);
    });
  }

  /** Scrolls by a distance in pixels: by whole rows, and later by the rest. */
  #scrollBy(distance) {
    this.#moved += distance / this.#view.cellHeight;
    const rows = Math.trunc(this.#moved);
    this.#moved -= rows;
    if (rows !== 0) this.#scroll(rows, this.#point);
  }
}
