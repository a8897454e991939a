const DELAY = 250;
const MAX_ANNOUNCED_ROWS = 8;

/**
 * The text of the displayed rows for screen readers: a hidden element for each row, and a live region that announces
 * changed rows. Both are updated with a delay, so that busy output does not slow down drawing. Then `textOf(row)` returns
 * the text of a row.
 */
export class AccessibleText {
  #rows;
  #live;
  #pending = new Set();
  #textOf;
  #timer = null;
  /** Whether changed rows are announced. */
  announces = true;

  constructor(document, textOf) {
    this.#textOf = textOf;
    this.#rows = document.createElement("div");
    this.#rows.setAttribute("role", "group");
    this.#rows.setAttribute("aria-label", "Terminal screen");
    this.#live = document.createElement("div");
    this.#live.setAttribute("aria-live", "polite");
    this.element = document.createElement("div");
    this.element.className = "accessible";
    this.element.append(this.#rows, this.#live);
  }

  /** Gives the text a number of rows. */
  resize(rows) {
    this.#pending.clear();
    const elements = Array.from({ length: rows }, () => this.#rows.ownerDocument.createElement("div"));
    this.#rows.replaceChildren(...elements);
  }

  /** Records that a row has changed. */
  update(row) {
    this.#pending.add(row);
    this.#timer ??= setTimeout(() => this.flush(), DELAY);
  }

  /** Updates the elements now. */
  flush() {
    clearTimeout(this.#timer);
    this.#timer = null;
    const changed = [];
    for (const row of [...this.#pending].sort((left, right) => left - right)) {
      const element = this.#rows.children[row], text = this.#textOf(row);
      if (element === undefined || element.textContent === text) continue;
      element.textContent = text;
      if (text.trim() !== "") changed.push(text);
    }
    this.#pending.clear();
    if (this.announces && changed.length > 0) this.#announce(changed);
  }

  #announce(changed) {
    const isLong = changed.length > MAX_ANNOUNCED_ROWS;
    this.#live.textContent = isLong ? `${changed.length} rows changed` : changed.join("\n");
  }
}
