// Buttons for keys that touch keyboards lack.

const DELAY = 400, INTERVAL = 50; // milliseconds

/**
 * Calls `press(key)` for the buttons in an element, whose keys are in `data-key`; that of an arrow is repeated while it is
 * held. `showKeyboard()` is called for the key "Keyboard".
 */
export class KeyButtons {
  #press;
  #showKeyboard;
  #timer = null;

  constructor(bar, press, showKeyboard) {
    [this.#press, this.#showKeyboard] = [press, showKeyboard];
    // A button that takes the focus would close the touch keyboard.
    bar.addEventListener("mousedown", (event) => event.preventDefault());
    bar.addEventListener("pointerdown", ({ target }) => this.#down(target.dataset.key));
    for (const type of ["pointerup", "pointercancel", "pointerout"]) bar.addEventListener(type, () => this.#up());
    bar.addEventListener("click", ({ target, detail }) => this.#click(target.dataset.key, detail));
  }

  #down(key) {
    this.#up();
    if (key === undefined || key === "Keyboard") return;
    this.#press(key);
    if (key.startsWith("Arrow")) this.#repeat(key, DELAY);
  }

  #repeat(key, delay) {
    this.#timer = setTimeout(() => {
      this.#press(key);
      this.#repeat(key, INTERVAL);
    }, delay);
  }

  #up() {
    clearTimeout(this.#timer);
  }

  /** Handles clicks that no pointer has made, and those that may bring up the touch keyboard. */
  #click(key, count) {
    if (key === "Keyboard") this.#showKeyboard();
    else if (key !== undefined && count === 0) this.#press(key);
  }
}
