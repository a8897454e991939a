/**
 * A hidden text area that is put under the pointer when a context menu opens, so that the menu offers to copy the selected
 * text of a canvas.
 */
export class CopyArea {
  /** Shows the area in a root while `text()` returns text. `done` is called when it has lost the focus. */
  constructor(root, text, done) {
    this.element = document.createElement("textarea");
    this.element.className = "copy";
    this.element.readOnly = true;
    this.element.tabIndex = -1;
    this.element.setAttribute("aria-hidden", "true");
    this.element.hidden = true;
    this.element.addEventListener("blur", () => this.#hide());
    this.element.addEventListener("keydown", () => this.#hide());
    root.append(this.element);
    this.#text = text;
    this.#done = done;
  }

  #text;
  #done;

  /** Puts the area under the pointer if there is text. `left` and `top` are those of the root's element in the window. */
  show({ clientX, clientY }, { left, top }) {
    const text = this.#text();
    if (text === "") return;
    const { element } = this;
    element.hidden = false;
    element.style.setProperty("left", `${clientX - left - 8}px`);
    element.style.setProperty("top", `${clientY - top - 8}px`);
    element.value = text;
    element.focus({ preventScroll: true });
    element.select();
  }

  #hide() {
    const { element } = this;
    if (element.hidden) return;
    element.hidden = true;
    element.value = "";
    this.#done();
  }
}
