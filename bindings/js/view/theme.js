import { optionsAmong } from "../lib/errors.js";
import { BACKGROUND, DIM_OPACITY, FOREGROUND, checkTheme, paletteOf } from "../lib/palette.js";
import { BGCOLOR, CELL_SIZE, FGCOLOR, INVERSE, flagsAt } from "./cells.js";

const NAMES = [
  "foreground", "background", "cursor", "cursorText", "selection", "selectionText", "dimOpacity", "palette",
];

/** The palette's first 16 colors on a white background, on which all but white and bright white are legible as text. */
const ON_WHITE = [
  "#000000", "#b02020", "#0a7a40", "#7a6400", "#1f5fb8", "#9a2a9a", "#0b7285", "#d5d5d5",
  "#666666", "#c62f2f", "#0d8046", "#8a6d00", "#2a6fd0", "#b035b0", "#0f7b91", "#ffffff",
];

/** The colors of a view. A theme does not change; to change colors, assign another theme to the view. */
export class Theme {
  constructor(colors = {}) {
    const {
      foreground = FOREGROUND, background = BACKGROUND, cursor = foreground, cursorText = background,
      selection = "#355070", selectionText = null, dimOpacity = DIM_OPACITY, palette = [],
    } = optionsAmong(NAMES, colors);
    const given = { foreground, background, cursor, cursorText, selection, ...(selectionText === null ? {} : { selectionText }) };
    checkTheme(given, { dimOpacity, palette });
    this.foreground = foreground;
    this.background = background;
    this.cursor = cursor;
    this.cursorText = cursorText;
    this.selection = selection;
    this.selectionText = selectionText;
    this.dimOpacity = dimOpacity;
    this.palette = paletteOf(palette);
    Object.freeze(this);
  }

  static dark = new Theme();
  static light = new Theme({ foreground: "#202020", background: "#ffffff", selection: "#b5d5ff", palette: ON_WHITE });

  /** Returns the theme in the header of a recording (`fg`, `bg` and `palette`, joined by colons), or `fallback`. */
  static fromCast(header, fallback = Theme.dark) {
    const { fg, bg, palette } = header ?? {};
    if (!fg || !bg) return fallback;
    const colors = String(palette ?? "").split(":").filter(Boolean);
    // A palette of eight colors has no bright ones.
    return new Theme({ foreground: fg, background: bg, palette: colors.length === 8 ? [...colors, ...colors] : colors });
  }

  /** Returns the color of the record of a color at `at`, as CSS writes it. */
  color(records, at, fallback) {
    if (records[at] === 0) return fallback;
    if (records[at] === 1) return this.palette[records[at + 1]];
    return `rgb(${records[at + 1]},${records[at + 2]},${records[at + 3]})`;
  }

  /** Returns the colors of a cell's text and background, after inversion and selection. */
  colorsOf(records, col, isSelected) {
    const at = CELL_SIZE * col;
    let text = this.color(records, at + FGCOLOR, this.foreground);
    let background = this.color(records, at + BGCOLOR, this.background);
    if (flagsAt(records, col) & INVERSE) [text, background] = [background, text];
    return isSelected ? { text: this.selectionText ?? text, background: this.selection } : { text, background };
  }
}
