// The keyboard of a viewer: keys, text of touch keyboards and input methods, pasted text, and the buttons for keys that touch
// keyboards lack.

import { KeyButtons } from "./key_buttons.js";
import { keyText, pasteText } from "./keys.js";
import { TextInput } from "./text_input.js";

const SCROLL_KEYS = ["PageUp", "PageDown", "Home", "End"];
const NO_MODIFIERS = { ctrlKey: false, altKey: false, shiftKey: false, metaKey: false, isComposing: false };

/** Returns by how many rows a key scrolls the display back, or null if it does not scroll. */
function scrollCount({ key, shiftKey, ctrlKey, altKey, metaKey }, { rows, scrollbackLen }) {
  if (!shiftKey || ctrlKey || altKey || metaKey || scrollbackLen === 0) return null;
  return [rows, -rows, Infinity, -Infinity][SCROLL_KEYS.indexOf(key)] ?? null;
}

/**
 * Sends what is typed. `state()` returns the state of the screen, or null if this viewer may not type. `send(text)` sends
 * text to the program.
 */
export class Keyboard {
  #view;
  #area;
  #keys;
  #state;
  #send;
  #hasCtrl = false;

  constructor({ view, area, keys, state, send }) {
    [this.#view, this.#area, this.#keys, this.#state, this.#send] = [view, area, keys, state, send];
    const isTouched = matchMedia("(pointer: coarse)").matches;
    new TextInput(area, isTouched, (deleted, text) => this.#typeText(deleted, text));
    area.addEventListener("compositionstart", () => this.#moveArea());
    document.addEventListener("keydown", (event) => this.#keyDown(event), { capture: true });
    document.addEventListener("paste", (event) => this.#paste(event));
    document.addEventListener("copy", (event) => this.#copy(event));
    new KeyButtons(keys, (key) => this.#press(key), () => this.#show());
  }

  /** Moves the focus to the text area, which brings up a touch keyboard. */
  focus() {
    this.#area.focus({ preventScroll: true });
  }

  /** Moves the text area to the cursor, beside which an input method shows what it composes. */
  #moveArea() {
    const state = this.#state(), { cellWidth, cellHeight } = this.#view;
    if (state === null) return;
    this.#area.style.setProperty("left", `${state.cursorCol * cellWidth}px`);
    this.#area.style.setProperty("top", `${state.cursorRow * cellHeight}px`);
  }

  /** Brings up a touch keyboard, even if the text area still has the focus since the last one was closed. */
  #show() {
    this.#area.blur();
    this.focus();
  }

  #type(text) {
    if (text === null || text === "") return false;
    this.#view.clearSelection();
    this.#send(text);
    return true;
  }

  /** Returns the text of a key, with Ctrl if its button was pressed, or null if nothing is sent. */
  #textOf(event, state) {
    const { key, code, altKey, shiftKey, metaKey, isComposing } = event, ctrlKey = event.ctrlKey || this.#hasCtrl;
    const getModifierState = (name) => event.getModifierState?.(name) ?? false;
    const text = keyText({ key, code, ctrlKey, altKey, shiftKey, metaKey, isComposing, getModifierState }, state);
    if (text !== null) this.#setCtrl(false);
    return text;
  }

  #setCtrl(hasCtrl) {
    this.#hasCtrl = hasCtrl;
    this.#keys.querySelector("[data-key=Control]").setAttribute("aria-pressed", String(hasCtrl));
  }

  /** Whether the browser handles a key: it copies a selection, or pastes. */
  #isForBrowser({ key, ctrlKey, shiftKey, altKey }) {
    if (shiftKey && key === "Insert") return true;
    if (!ctrlKey || altKey) return false;
    const letter = key.toLowerCase();
    return (letter === "c" && (shiftKey || this.#view.selectedText !== "")) || (letter === "v" && shiftKey);
  }

  #keyDown(event) {
    const { screen } = this.#view;
    if (screen === null || this.#isForBrowser(event)) return;
    const count = scrollCount(event, screen.state), state = this.#state();
    if (count !== null) {
      event.preventDefault();
      this.#view.scrollRows(count);
    } else if (state !== null && this.#type(this.#textOf(event, state))) {
      event.preventDefault();
    }
  }

  /** Sends text that the text area has received. */
  #typeText(deleted, text) {
    const state = this.#state();
    if (state === null) return;
    const backspace = keyText({ key: "Backspace", ...NO_MODIFIERS }, state);
    const [first = "", ...rest] = text.replace(/\r\n|\n/g, "\r");
    const key = this.#textOf({ key: first, ...NO_MODIFIERS }, state) ?? first;
    this.#type(backspace.repeat(deleted) + key + rest.join(""));
  }

  #paste(event) {
    const state = this.#state();
    if (state === null) return;
    event.preventDefault();
    this.#type(pasteText(event.clipboardData.getData("text/plain"), state));
  }

  /** Copies the selection, wherever the focus is. Afterward, Ctrl+C goes to the program again. */
  #copy(event) {
    const text = this.#view.selectedText;
    if (text === "") return;
    event.clipboardData.setData("text/plain", text);
    event.preventDefault();
    setTimeout(() => this.#view.clearSelection());
  }

  /** Handles a button. */
  #press(key) {
    const state = this.#state();
    if (state === null) return;
    if (key === "Control") this.#setCtrl(!this.#hasCtrl);
    else this.#type(this.#textOf({ key, ...NO_MODIFIERS }, state));
  }
}
