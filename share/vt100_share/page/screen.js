// The screen of the shared program, as the page's own parser holds it.

/** How many rows the page keeps that have scrolled off. */
const SCROLLBACK = 10000;

/** The largest number of columns that a screen has. */
const MAX_COLS = 1000;

/** Makes a screen blank, with its cursor in the first row and column. */
const BLANK = "\x1b[m\x1b[H\x1b[J";

/**
 * The screen that `view` draws. Its parser reads redraws and updates of the server; neither of them scrolls a row off. Rows
 * that have scrolled off the program's screen are read apart, and put into the parser's scrollback.
 */
export class SharedScreen {
  #vt100;
  #view;
  #parser = null;
  /** Whether the program displays the alternate screen, of which the parser knows nothing. */
  isAlternate = false;
  /** The number of the next row that scrolls off, or null if any row may be the first. */
  #nextRow = null;

  constructor(vt100, view) {
    this.#vt100 = vt100;
    this.#view = view;
  }

  /** The modes and numbers of the screen, or null if there is none yet. */
  get state() {
    return this.#parser && { ...this.#parser.state, alternateScreen: this.isAlternate };
  }

  get contents() {
    return this.#parser?.contents() ?? "";
  }

  /** Discards the rows that have scrolled off: the server sends those that it has kept. */
  forgetRows() {
    this.#parser?.clearScrollback();
    this.#nextRow = null;
  }

  /** Makes the parser, which keeps its scrollback, show what a new terminal of a size shows that reads a redraw. */
  redraw(rows, cols, bytes) {
    const fresh = new this.#vt100.Parser(rows, cols, { scrollback: SCROLLBACK });
    fresh.process(bytes);
    if (this.#parser === null) {
      this.#parser = fresh;
      this.#view.attach(fresh);
      return;
    }
    this.#withoutScrollback(() => {
      this.#resize(rows, cols);
      this.#parser.process(fresh.stateDiff(this.#parser));
    });
    fresh.free();
    this.#view.requestDraw();
  }

  /** Changes the size of the parser, whose screen may be anything afterward. Its scrollback stays the same. */
  #resize(rows, cols) {
    const parser = this.#parser, { rows: oldRows, cols: oldCols, scrollbackLen } = parser.state;
    if (rows === oldRows && cols === oldCols) return;
    // If there are fewer rows, no row scrolls off, since rows below the cursor are dropped first.
    parser.process(BLANK);
    if (rows > oldRows) {
      // Rows come back from the scrollback, and scroll off again before columns are cut off.
      parser.setSize(oldRows, MAX_COLS);
      parser.setSize(rows, MAX_COLS);
      parser.process(`\x1b[${rows}H${"\n".repeat(scrollbackLen - parser.state.scrollbackLen)}`);
    }
    parser.setSize(rows, cols);
  }

  update(bytes) {
    this.#parser.process(bytes);
    this.#view.requestDraw();
  }

  /** Adds rows to the scrollback, of a screen with `rowCols` columns. If `number` is not that of the next row, there are
      rows missing, and the earlier ones are discarded. */
  scrolled(number, count, rowCols, bytes) {
    const parser = this.#parser;
    if (this.#nextRow !== null && number !== this.#nextRow) this.forgetRows();
    this.#nextRow = (number + count) >>> 0;
    if (count > 0) {
      this.#withoutScrollback(() => {
        const { rows, cols } = parser.size, redraw = parser.contentsFormatted();
        parser.process(BLANK);
        parser.setSize(rows, rowCols);
        parser.process(bytes);
        parser.process(`\x1b[${rows}H${"\n".repeat(parser.cursor.row)}`);
        parser.setSize(rows, cols);
        parser.process(redraw);
      }, count);
    }
    this.#view.requestDraw();
  }

  /** Changes the screen, and adds a number of rows to the scrollback, while the display is not scrolled back. Then
      displays the same rows as before. */
  #withoutScrollback(change, added = 0) {
    const parser = this.#parser, { scrollback } = parser;
    parser.setScrollback(0);
    change();
    if (scrollback > 0) parser.setScrollback(scrollback + added);
  }

  /** Scrolls to the end, where the cursor is. */
  scrollToEnd() {
    if (this.#parser?.scrollback) this.#view.scrollRows(-Infinity);
  }
}
