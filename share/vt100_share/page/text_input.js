// Text that no key stands for: that of touch keyboards, input methods, dead keys and dictation.

// What the text area contains between inputs, so that a touch keyboard has something to delete.
const FILLER = " ".repeat(16);

/** Returns the number of leading elements that two arrays have in common. */
function commonLength(left, right) {
  let length = 0;
  while (length < left.length && left[length] === right[length]) length++;
  return length;
}

/**
 * Reads a text area. `send(deleted, text)` is called with the number of characters that were deleted before the cursor, and
 * with the text that was then inserted.
 *
 * A touch keyboard composes words that it may still correct, and would show them only at their ends. If `isLive` is true,
 * text is sent while it is composed, and corrections are sent as deletions. Otherwise, it is sent when it is complete.
 */
export class TextInput {
  #area;
  #send;
  #isLive;
  #seen = [...FILLER];
  #isComposing = false;

  constructor(area, isLive, send) {
    [this.#area, this.#isLive, this.#send] = [area, isLive, send];
    area.addEventListener("compositionstart", () => (this.#isComposing = true));
    area.addEventListener("compositionend", () => {
      this.#isComposing = false;
      // Some browsers change the text only after this event.
      setTimeout(() => this.#take());
    });
    area.addEventListener("input", () => this.#take());
    this.#reset();
  }

  #take() {
    if (this.#isComposing && !this.#isLive) return;
    const text = [...this.#area.value], kept = commonLength(this.#seen, text);
    const deleted = this.#seen.length - kept, inserted = text.slice(kept).join("");
    this.#seen = text;
    if (deleted > 0 || inserted !== "") this.#send(deleted, inserted);
    if (!this.#isComposing) this.#reset();
  }

  #reset() {
    if (this.#area.value !== FILLER) this.#area.value = FILLER;
    this.#area.setSelectionRange(FILLER.length, FILLER.length);
    this.#seen = [...FILLER];
  }
}
