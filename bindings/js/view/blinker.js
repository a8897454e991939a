const INTERVAL = 600;

/** A light that turns on and off at intervals, unless the user has requested reduced motion. */
export class Blinker {
  #timer = null;
  #changed;
  /** Whether the light is on. It is on while it does not blink. */
  isLit = true;

  /** Calls `changed` whenever the light turns on or off. */
  constructor(changed) {
    this.#changed = changed;
  }

  /** Starts or stops blinking. */
  set isBlinking(isBlinking) {
    if (!isBlinking || globalThis.matchMedia?.("(prefers-reduced-motion: reduce)").matches) {
      clearInterval(this.#timer);
      this.#timer = null;
      this.isLit = true;
      return;
    }
    this.#timer ??= setInterval(() => {
      this.isLit = !this.isLit;
      this.#changed();
    }, INTERVAL);
  }
}
