import { drawBoxCharacter } from "./box_drawing.js";
import {
  BOLD, CELL_SIZE, CONTINUATION, DIM, ITALIC, NO_COLUMNS, UNDERLINE, WIDE, flagsAt, runsOf,
} from "./cells.js";
import { Theme } from "./theme.js";

const SAMPLE = "M".repeat(64);
// Characters that reach far above or below the baseline.
const TALL = "Édfl|[{(_gjpqy";

/**
 * Draws rows of cells on the 2D context of a canvas. All lengths are whole device pixels, so that cells have sharp
 * edges and a row can be drawn without touching its neighbors.
 */
export class Painter {
  #context;
  #fonts = [];
  #font = null;
  #fontPixels = 0;
  #baseline = 0;
  #hasSpacing;

  constructor(context) {
    this.#context = context;
    this.#hasSpacing = "letterSpacing" in context;
    this.theme = Theme.dark;
    this.cols = 0;
    this.cellWidth = 0;
    this.cellHeight = 0;
  }

  /** Sets the font, whose size is in device pixels, and computes the size of a cell from it. */
  setFont(family, pixels, lineHeight) {
    const context = this.#context;
    this.#fontPixels = pixels;
    this.#fonts = [0, BOLD, ITALIC, BOLD | ITALIC].map((style) => {
      const css = `${style & ITALIC ? "italic " : ""}${style & BOLD ? "bold " : ""}${pixels}px ${family}`;
      context.font = css;
      if (this.#hasSpacing) context.letterSpacing = "0px";
      return { css, advance: context.measureText(SAMPLE).width / SAMPLE.length };
    });
    context.font = this.#fonts[0].css;
    const { ascent, descent } = this.#measureHeight(pixels);
    this.cellWidth = Math.max(1, Math.round(this.#fonts[0].advance));
    this.cellHeight = Math.max(1, Math.round((ascent + descent) * lineHeight));
    this.#baseline = ascent + Math.round((this.cellHeight - ascent - descent) / 2);
    // Without spacing, the characters of a run would drift from their cells, whose width is rounded.
    for (const font of this.#fonts) font.spacing = `${this.cellWidth - font.advance}px`;
    this.#useFont(0);
  }

  /** Measures the part of a row above and below the baseline, in whole pixels. */
  #measureHeight(pixels) {
    // Browsers before 2023 do not measure the font. Others round its descent, which may cut off "_".
    const {
      fontBoundingBoxAscent = 0.93 * pixels, fontBoundingBoxDescent = 0.24 * pixels,
      actualBoundingBoxAscent, actualBoundingBoxDescent,
    } = this.#context.measureText(TALL);
    return {
      ascent: Math.ceil(Math.max(fontBoundingBoxAscent, actualBoundingBoxAscent)),
      descent: Math.ceil(Math.max(fontBoundingBoxDescent, actualBoundingBoxDescent)),
    };
  }

  /** Resizes the canvas to a grid of cells, which clears it. */
  resize(rows, cols) {
    const { canvas } = this.#context;
    this.cols = cols;
    canvas.width = cols * this.cellWidth;
    canvas.height = rows * this.cellHeight;
    this.#font = null; // resizing resets the context
    this.#useFont(0);
  }

  /** Draws a row. `selected` is the range of selected columns, and `cursor` is null or `{ col, shape }`. */
  paintRow(row, records, selected, cursor) {
    const context = this.#context, { cellWidth, cellHeight, theme } = this, y = row * cellHeight;
    const runs = runsOf(records, selected ?? NO_COLUMNS);
    const colors = runs.map(({ col, isSelected }) => theme.colorsOf(records, col, isSelected));
    this.#clip(y);
    context.fillStyle = theme.background;
    context.fillRect(0, y, this.cols * cellWidth, cellHeight);
    runs.forEach(({ col, width }, k) => {
      if (colors[k].background === theme.background) return;
      context.fillStyle = colors[k].background;
      context.fillRect(col * cellWidth, y, width * cellWidth, cellHeight);
    });
    runs.forEach((run, k) => this.#paintText(run, colors[k].text, y));
    if (cursor !== null) this.#paintCursor(records, y, cursor);
    this.#unclip();
  }

  /** Confines drawing to a row: some glyphs reach into the neighboring rows, at least by a faint pixel. */
  #clip(y) {
    const context = this.#context;
    context.save();
    context.beginPath();
    context.rect(0, y, this.cols * this.cellWidth, this.cellHeight);
    context.clip();
  }

  /** Ends the confinement. The font is then again the regular one. */
  #unclip() {
    this.#context.restore();
    this.#font = this.#fonts[0];
  }

  #paintText({ col, width, text, isSimple, flags }, color, y) {
    const context = this.#context, { cellWidth } = this, x = col * cellWidth;
    const isBlank = text.trim() === "";
    if (isBlank && !(flags & UNDERLINE)) return;
    context.fillStyle = color;
    context.globalAlpha = flags & DIM ? this.theme.dimOpacity : 1;
    if (!isBlank) this.#paintGlyphs(text, x, y, width * cellWidth, isSimple, flags);
    if (flags & UNDERLINE) this.#paintUnderline(x, y, width * cellWidth);
    context.globalAlpha = 1;
  }

  #paintGlyphs(text, x, y, width, isSimple, flags) {
    const context = this.#context, baseline = y + this.#baseline;
    if (!isSimple && drawBoxCharacter(context, text, x, y, width, this.cellHeight)) return;
    this.#useFont(flags);
    if (!isSimple) context.fillText(text, x, baseline, width); // squeezed if the glyph is wider than its cells
    else if (this.#hasSpacing) context.fillText(text, x, baseline);
    else for (let k = 0; k < text.length; k++) context.fillText(text[k], x + k * this.cellWidth, baseline);
  }

  /** Selects a font. Assigning to the context's font is slow, even if it does not change. */
  #useFont(flags) {
    const font = this.#fonts[(flags & BOLD ? 1 : 0) + (flags & ITALIC ? 2 : 0)];
    if (font === this.#font) return;
    this.#font = font;
    this.#context.font = font.css;
    this.#context.textBaseline = "alphabetic";
    this.#context.direction = "ltr"; // otherwise, it is that of the element
    if (this.#hasSpacing) this.#context.letterSpacing = font.spacing;
  }

  #paintUnderline(x, y, width) {
    const thickness = Math.max(1, Math.round(this.#fontPixels / 14));
    const top = Math.min(this.#baseline + thickness, this.cellHeight - thickness);
    this.#context.fillRect(x, y + top, width, thickness);
  }

  #paintCursor(records, y, { col, shape }) {
    const context = this.#context, { cellWidth, cellHeight, theme } = this;
    const first = flagsAt(records, col) & CONTINUATION && col > 0 ? col - 1 : col;
    const cells = flagsAt(records, first) & WIDE && first + 1 < this.cols ? 2 : 1;
    const x = first * cellWidth, width = cells * cellWidth, thickness = Math.max(1, Math.round(this.#fontPixels / 8));
    context.fillStyle = theme.cursor;
    if (shape === "underline") return context.fillRect(x, y + cellHeight - thickness, width, thickness);
    if (shape === "bar") return context.fillRect(x, y, thickness, cellHeight);
    context.fillRect(x, y, width, cellHeight);
    const run = runsOf(records.subarray(CELL_SIZE * first, CELL_SIZE * (first + cells)))[0];
    return this.#paintText({ ...run, col: first }, theme.cursorText, y);
  }
}
