import { notNegative, oneOf, positive } from "../lib/errors.js";
import { AccessibleText } from "./accessible_text.js";
import { Blinker } from "./blinker.js";
import { rowText } from "./cells.js";
import { CopyArea } from "./copy_area.js";
import { ElementBase, positiveIn } from "./element.js";
import { Painter } from "./painter.js";
import { RowStore } from "./row_store.js";
import { adoptStyle } from "./styles.js";
import { Theme } from "./theme.js";
import { TouchInput } from "./touch_input.js";
import { ViewSelection, topRowOf } from "./view_selection.js";

const STYLE = `
  :host { display: block; position: relative; overflow: hidden; outline-offset: 2px; cursor: text; direction: ltr;
    background: ${Theme.dark.background}; }
  :host([hidden]) { display: none; }
  canvas { display: block; user-select: none; }
  .accessible { position: absolute; width: 1px; height: 1px; overflow: hidden; clip-path: inset(50%); white-space: pre; }
  .copy { position: absolute; width: 16px; height: 16px; padding: 0; border: 0; opacity: 0; resize: none; overflow: hidden; }
  .copy[hidden] { display: none; }
`;
const SHAPES = { 1: "block", 2: "block", 3: "underline", 4: "underline", 5: "bar", 6: "bar" };
const BLINKING = [1, 3, 5];
const CURSOR_SHAPES = ["block", "underline", "bar"], FITS = ["none", "width", "both"];
const MIN_PIXELS = 4;
const MAX_PIXELS = 400;

/** Returns whether a key is the one that selects everything: Ctrl+A, or Command+A on a Mac. */
function isSelectAll({ key, ctrlKey, metaKey, shiftKey }) {
  return key?.toLowerCase() === "a" && ctrlKey !== metaKey && !shiftKey;
}

/**
 * An element that draws a screen on a canvas: `<vt100-view>`. Only rows that have changed since the last drawing are
 * drawn. view.d.ts describes the interface.
 */
export class TerminalView extends ElementBase {
  static observedAttributes = ["font-size", "font-family", "line-height", "fit"];

  #screen = null;
  #theme = Theme.dark;
  #canvas;
  #painter;
  #accessible;
  #store = new RowStore();
  #selection;
  #copyArea;
  #rows = 0;
  #cols = 0;
  #state = null;
  /** What each row was drawn with, besides its cells. */
  #drawnWith = [];
  #fontInUse = "";
  #usedScale = 0;
  #isStale = true;
  #frame = null;
  #blinker = new Blinker(() => this.requestDraw());
  #turned = 0;
  #observer = new ResizeObserver(() => this.fit === "none" || this.#refit());
  #density = null;
  /** The shape of a cursor with the default style. */
  #cursorShape = "block";

  constructor() {
    super();
    const root = this.attachShadow({ mode: "open" });
    adoptStyle(root, STYLE);
    this.#canvas = document.createElement("canvas");
    this.#canvas.setAttribute("aria-hidden", "true");
    this.#accessible = new AccessibleText(document, (row) => rowText(this.#store.rowAt(row)));
    root.append(this.#canvas, this.#accessible.element);
    this.#painter = new Painter(this.#canvas.getContext("2d", { alpha: false }));
    this.#selection = new ViewSelection(this.#selectionHost());
    this.#copyArea = new CopyArea(root, () => this.selectedText, () => this.focus({ preventScroll: true }));
    new TouchInput(this.#canvas, this.#touchTarget());
    this.#canvas.addEventListener("mousedown", (event) => this.#mouseDown(event));
    this.addEventListener("wheel", (event) => this.#wheelTurned(event), { passive: false });
    this.addEventListener("keydown", (event) => this.#keyDown(event));
    this.addEventListener("copy", (event) => this.#copy(event));
    this.addEventListener("contextmenu", (event) => this.#openMenu(event));
  }

  connectedCallback() {
    if (!this.hasAttribute("tabindex")) this.tabIndex = 0;
    if (!this.hasAttribute("role")) this.setAttribute("role", "region");
    if (!this.hasAttribute("aria-label")) this.setAttribute("aria-label", "Terminal");
    this.#observer.observe(this);
    document.fonts?.addEventListener("loadingdone", this.#fontsLoaded);
    this.#watchDensity();
    this.#refit();
  }

  disconnectedCallback() {
    this.#observer.disconnect();
    document.fonts?.removeEventListener("loadingdone", this.#fontsLoaded);
    this.#density?.removeEventListener("change", this.#densityChanged);
    this.#density = null;
    this.#blinker.isBlinking = false;
    cancelAnimationFrame(this.#frame);
    this.#frame = null;
  }

  attributeChangedCallback() {
    if (this.isConnected) this.#refit();
  }

  // ---- the screen

  get screen() {
    return this.#screen;
  }

  attach(screen) {
    if (typeof screen?.rowBytes !== "function") throw new TypeError("attach takes a Screen or a Parser");
    this.#selection.reset();
    this.#screen = screen;
    this.#isStale = true;
    this.#store.clear();
    this.#state = null;
    this.#refit();
  }

  detach() {
    this.#screen = null;
    this.#blinker.isBlinking = false;
  }

  /** Returns the state of the screen, or null if there is no screen to draw. */
  #stateOfScreen() {
    return this.#screen === null || this.#screen.isFreed ? null : this.#screen.state;
  }

  // ---- drawing

  draw() {
    return this.#drawChanges(false);
  }

  /** Draws what has changed. `isScrolled` is true if the view has scrolled the display, and nothing else has changed. */
  #drawChanges(isScrolled) {
    const state = this.#stateOfScreen();
    if (state === null) return 0;
    const isResized = state.rows !== this.#rows || state.cols !== this.#cols || this.#usedScale !== this.#scale();
    if (this.#isStale || isResized) this.#prepare(state);
    const changed = this.#store.read(this.#screen, state), before = this.#state;
    this.#state = state;
    if (before !== null && !isScrolled && changed.size > 0) this.#selection.dropIfStale(before);
    if (before?.cursorRow !== state.cursorRow || before.cursorCol !== state.cursorCol) this.#blinker.isLit = true;
    let drawn = 0;
    for (let row = 0; row < state.rows; row++) drawn += Number(this.#drawRow(row, changed.has(row)));
    for (const row of changed) this.#accessible.update(row);
    this.#blinker.isBlinking = this.isConnected && BLINKING.includes(state.cursorStyle) && !state.hideCursor;
    const { scrollback, scrollbackLen } = state, isMoved = before?.scrollback !== scrollback;
    if (isMoved || before.scrollbackLen !== scrollbackLen) this.#emit("scrollbackchange", { scrollback, scrollbackLen });
    return drawn;
  }

  /** Draws a row if its cells, its selection or its cursor have changed. Returns whether it was drawn. */
  #drawRow(row, hasChanged) {
    const selected = this.#selection.columnsOf(row + topRowOf(this.#state), this.#cols), cursor = this.#cursorOn(row);
    const key = `${selected ?? ""};${cursor?.col ?? ""};${cursor?.shape ?? ""}`;
    if (!hasChanged && this.#drawnWith[row] === key) return false;
    this.#drawnWith[row] = key;
    this.#painter.paintRow(row, this.#store.rowAt(row), selected, cursor);
    return true;
  }

  /** Gives the canvas the size of the screen in the current font. */
  #prepare({ rows, cols }) {
    if (rows !== this.#rows || cols !== this.#cols) {
      this.#selection.resize();
      [this.#rows, this.#cols] = [rows, cols];
      this.#accessible.resize(rows);
    }
    this.#setFont(this.#pixelsToUse());
    this.#usedScale = this.#scale();
    this.#painter.theme = this.#theme;
    this.#painter.resize(rows, cols);
    this.#canvas.style.width = `${cols * this.cellWidth}px`;
    this.#canvas.style.height = `${rows * this.cellHeight}px`;
    this.#drawnWith = [];
    this.#isStale = false;
  }

  /** Returns the cursor on a displayed row, or null if it is elsewhere or not visible. */
  #cursorOn(row) {
    const { hideCursor, cursorRow, cursorCol, cursorStyle, scrollback } = this.#state;
    if (hideCursor || cursorRow + scrollback !== row) return null;
    if (BLINKING.includes(cursorStyle) && !this.#blinker.isLit) return null;
    return { col: Math.min(cursorCol, this.#cols - 1), shape: SHAPES[cursorStyle] ?? this.cursorShape };
  }

  redraw() {
    this.#fontInUse = "";
    this.#isStale = true;
    return this.draw();
  }

  requestDraw() {
    if (!this.isConnected) return;
    this.#frame ??= requestAnimationFrame(() => {
      this.#frame = null;
      this.draw();
    });
  }

  // ---- font, size and theme

  get theme() {
    return this.#theme;
  }

  set theme(theme) {
    this.#theme = theme instanceof Theme ? theme : new Theme(theme);
    this.#isStale = true;
    this.style.setProperty("background", this.#theme.background);
    this.requestDraw();
  }

  get fontSize() {
    return positiveIn(this, "font-size", 16);
  }

  set fontSize(size) {
    this.setAttribute("font-size", String(positive("fontSize", size)));
  }

  get fontFamily() {
    return this.getAttribute("font-family") ?? '"DejaVu Sans Mono", Menlo, Consolas, monospace';
  }

  set fontFamily(family) {
    this.setAttribute("font-family", family);
  }

  get lineHeight() {
    return positiveIn(this, "line-height", 1);
  }

  set lineHeight(factor) {
    this.setAttribute("line-height", String(positive("lineHeight", factor)));
  }

  get fit() {
    const fit = this.getAttribute("fit");
    return FITS.includes(fit) ? fit : "none";
  }

  set fit(fit) {
    this.setAttribute("fit", oneOf("fit", fit, FITS));
  }

  get cursorShape() {
    return this.#cursorShape;
  }

  set cursorShape(shape) {
    this.#cursorShape = oneOf("cursorShape", shape, CURSOR_SHAPES);
    this.#refit();
  }

  get cellWidth() {
    return this.#painter.cellWidth / this.#scale();
  }

  get cellHeight() {
    return this.#painter.cellHeight / this.#scale();
  }

  get announces() {
    return this.#accessible.announces;
  }

  set announces(announces) {
    this.#accessible.announces = Boolean(announces);
  }

  sizeThatFits(width, height) {
    for (const [name, length] of [["width", width], ["height", height]]) notNegative(name, length);
    this.#setFont(this.#pixelsToUse());
    const count = (length, cell) => Math.min(Math.max(Math.floor(length / cell), 1), 65535);
    return { rows: count(height, this.cellHeight), cols: count(width, this.cellWidth) };
  }

  #scale() {
    return globalThis.devicePixelRatio || 1;
  }

  /** Measures the font in a size, unless it is the current one. */
  #setFont(pixels) {
    const key = `${pixels} ${this.lineHeight} ${this.fontFamily}`;
    if (key === this.#fontInUse) return;
    this.#fontInUse = key;
    this.#painter.setFont(this.fontFamily, pixels, this.lineHeight);
    this.#emit("cellsizechange", { cellWidth: this.cellWidth, cellHeight: this.cellHeight });
  }

  /** Returns the font size in device pixels: the given one, or the largest with which the screen fits. */
  #pixelsToUse() {
    const given = Math.max(1, Math.round(this.fontSize * this.#scale()));
    const width = this.clientWidth * this.#scale(), height = this.clientHeight * this.#scale();
    if (this.fit === "none" || width === 0 || (this.fit === "both" && height === 0)) return given;
    let low = MIN_PIXELS, high = MAX_PIXELS;
    while (low < high) {
      const middle = Math.ceil((low + high) / 2);
      if (this.#fitsIn(middle, width, this.fit === "both" ? height : Infinity)) low = middle;
      else high = middle - 1;
    }
    return low;
  }

  #fitsIn(pixels, width, height) {
    this.#painter.setFont(this.fontFamily, pixels, this.lineHeight);
    this.#fontInUse = "";
    return this.#cols * this.#painter.cellWidth <= width && this.#rows * this.#painter.cellHeight <= height;
  }

  #refit() {
    const state = this.#stateOfScreen();
    if (state === null) return;
    this.#isStale = true;
    this.requestDraw();
  }

  /** Measures the font again, which may be one that was just loaded. */
  #fontsLoaded = () => {
    this.#fontInUse = "";
    this.#refit();
  };

  #densityChanged = () => {
    this.#watchDensity();
    this.#refit();
  };

  /** Waits for another ratio of device pixels, as when the window moves to another monitor. */
  #watchDensity() {
    this.#density?.removeEventListener("change", this.#densityChanged);
    this.#density = globalThis.matchMedia(`(resolution: ${this.#scale()}dppx)`);
    this.#density.addEventListener("change", this.#densityChanged);
  }

  // ---- scrollback

  scrollRows(count) {
    if (typeof count !== "number") throw new TypeError(`count must be a number, not ${typeof count}`);
    this.draw();
    const state = this.#stateOfScreen();
    if (state === null) return;
    this.#screen.setScrollback(Math.min(Math.max(state.scrollback + count, 0), state.scrollbackLen));
    this.#drawChanges(true);
  }

  #emit(type, detail) {
    this.dispatchEvent(new CustomEvent(type, { detail }));
  }

  #wheelTurned(event) {
    const state = this.#stateOfScreen();
    if (state === null || event.ctrlKey || this.#isForProgram(event, state)) return;
    const unit = [1 / this.cellHeight, 1, this.#rows][event.deltaMode];
    // With Shift, some browsers turn the wheel sideways.
    const delta = event.deltaY || (event.shiftKey ? event.deltaX : 0);
    const all = this.#turned + delta * unit, count = Math.trunc(all);
    this.#turned = all - count;
    if (!this.#canScroll(state, -delta)) return;
    event.preventDefault();
    if (count !== 0) this.scrollRows(-count);
  }

  /** Returns whether the display can be scrolled back, or forward if `count` is negative. */
  #canScroll({ scrollback, scrollbackLen }, count) {
    return count > 0 ? scrollback < scrollbackLen : scrollback > 0;
  }

  #keyDown(event) {
    if (event.defaultPrevented || event.altKey) return;
    if (isSelectAll(event)) {
      event.preventDefault();
      this.selectAll();
    }
    if (!event.shiftKey || event.ctrlKey || event.metaKey) return;
    const count = { PageUp: this.#rows, PageDown: -this.#rows, Home: Infinity, End: -Infinity }[event.key];
    if (count === undefined || !this.#state?.scrollbackLen) return;
    event.preventDefault();
    this.scrollRows(count);
  }

  // ---- selection

  /** Whether the page sends mouse events to the program that requests them. With Shift, they are still the view's. */
  mouseReporting = false;

  #isForProgram({ shiftKey }, state) {
    return this.#isReporting(state) && !shiftKey;
  }

  #isReporting({ mouseProtocolMode }) {
    return this.mouseReporting && mouseProtocolMode !== 0;
  }

  /** Whether the view reacts to fingers. */
  touchInput = true;

  get selectedRange() {
    return this.#selection.range;
  }

  get selectedText() {
    return this.#selection.text;
  }

  select(start, end) {
    this.#selection.select(start, end);
  }

  selectAll() {
    this.#selection.selectAll();
  }

  clearSelection() {
    this.#selection.clear();
  }

  /** Returns what a selection needs of the view. */
  #selectionHost() {
    const view = this;
    return {
      get screen() {
        return view.#stateOfScreen() === null ? null : view.#screen;
      },
      get state() {
        return view.#state;
      },
      store: this.#store,
      gridPoint: (x, y) => this.#gridPoint(x, y),
      draw: () => this.draw(),
      scrollRows: (count) => this.scrollRows(count),
      selectionChanged: () => {
        this.requestDraw();
        this.#emit("selectionchange", { range: this.selectedRange });
      },
    };
  }

  /** Returns a point of the window as a row and a column of the display, which may have fractions or be outside. */
  #gridPoint(clientX, clientY) {
    const { left, top } = this.#canvas.getBoundingClientRect();
    return { row: (clientY - top) / this.cellHeight, col: (clientX - left) / this.cellWidth };
  }

  cellAt(clientX, clientY) {
    const point = this.#gridPoint(clientX, clientY), row = Math.floor(point.row), col = Math.floor(point.col);
    return row >= 0 && row < this.#rows && col >= 0 && col < this.#cols ? { row, col } : null;
  }

  #mouseDown(event) {
    const state = this.#stateOfScreen();
    if (state === null || this.#state === null || this.#isForProgram(event, state)) return;
    if (event.button === 2) this.#openMenu(event);
    if (event.button !== 0) return;
    // The default action would select the text around the element.
    event.preventDefault();
    this.focus({ preventScroll: true });
    // While events go to the program, Shift means that they are the view's.
    this.#selection.beginWithMouse(event, event.shiftKey && !this.#isReporting(state));
  }

  /** Prepares for a context menu, for which some browsers send an event only when it is too late. */
  #openMenu(event) {
    if (!event.defaultPrevented) this.#copyArea.show(event, this.getBoundingClientRect());
  }

  /** Returns what fingers need of the view. */
  #touchTarget() {
    const view = this;
    return {
      get isActive() {
        return view.touchInput && view.#state !== null && view.#stateOfScreen() !== null;
      },
      get cellHeight() {
        return view.cellHeight;
      },
      canScroll: (count) => this.#canScroll(this.#state, count),
      scrollRows: (count) => this.scrollRows(count),
      begin: (point) => this.#selection.begin(point, false),
      move: (point) => this.#selection.move(point),
      end: () => this.#selection.end(),
    };
  }

  #copy(event) {
    if (this.#selection.isEmpty) return;
    event.clipboardData.setData("text/plain", this.selectedText);
    event.preventDefault();
  }
}
