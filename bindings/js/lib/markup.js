// Pictures of screens: HTML and SVG.

import { optionsAmong } from "./errors.js";
import { BACKGROUND, DIM_OPACITY, FOREGROUND, checkTheme, paletteOf } from "./palette.js";

const FONT = "'DejaVu Sans Mono', Menlo, Consolas, monospace";

// The size of the font and of a cell in SVG.
const FONT_SIZE = 15, CELL_WIDTH = 9, CELL_HEIGHT = 18, BASELINE = 14;

const ENTITIES = { "&": "&amp;", "<": "&lt;", ">": "&gt;", '"': "&quot;", "\ufffe": "\ufffd", "\uffff": "\ufffd" };

/** Returns text as HTML or XML, in which two characters are not allowed. */
function escaped(text) {
  return String(text).replace(/[&<>"\ufffe\uffff]/g, (char) => ENTITIES[char]);
}

/** Returns the colors of a theme, with the default ones for those that it lacks. */
function colorsOf(options) {
  const { theme = {} } = optionsAmong(["theme"], options);
  if (typeof theme !== "object" || theme === null) throw new TypeError("theme must be an object");
  const { foreground = FOREGROUND, background = BACKGROUND, dimOpacity = DIM_OPACITY, palette = [] } = theme;
  checkTheme({ foreground, background }, { dimOpacity, palette });
  return { foreground, background, dimOpacity, palette: paletteOf(palette) };
}

/** Returns a color as CSS writes it. */
function cssColor(color, fallback, { palette }) {
  if (color === null) return fallback;
  return typeof color === "number" ? palette[color] : `rgb(${color.join(",")})`;
}

/** Returns how a cell is drawn, and a key that is the same for cells that are drawn alike. */
function styleOf({ fgcolor, bgcolor, inverse, bold, dim, italic, underline }, colors) {
  let text = cssColor(fgcolor, colors.foreground, colors), background = cssColor(bgcolor, colors.background, colors);
  if (inverse) [text, background] = [background, text];
  const opacity = dim ? colors.dimOpacity : 1;
  const key = [text, background, opacity, bold, italic, underline].join();
  return { text, background, opacity, bold, italic, underline, key };
}

/**
 * Returns the runs of a row: the cells next to each other that are drawn alike, or a wide character alone. Each has its
 * column, its width in columns, its text and its style.
 */
function runsOf(cells, colors) {
  const runs = [];
  cells.forEach((cell, col) => {
    if (cell.wideContinuation) return;
    const style = styleOf(cell, colors), text = cell.text || " ", last = runs.at(-1);
    if (last?.style.key === style.key && last.width === last.length && !cell.wide) {
      last.text += text;
      last.width++;
      last.length++;
    } else {
      runs.push({ col, width: cell.wide ? 2 : 1, length: 1, text, style });
    }
  });
  return runs;
}

/** Returns whether a run is blank and looks like the background. */
function isInvisible({ text, style }, { background }) {
  return text.trim() === "" && style.background === background && !style.underline;
}

/** Returns the runs of a row without the blanks at its end that look like the background. */
function trimmed(runs, colors) {
  const kept = runs.slice(0, 1 + runs.findLastIndex((run) => !isInvisible(run, colors))), last = kept.at(-1);
  const hasBlanks = last !== undefined && last.style.background === colors.background && !last.style.underline;
  return hasBlanks ? [...kept.slice(0, -1), { ...last, text: last.text.replace(/ +$/, "") }] : kept;
}

/** Returns the declarations of a run's style that differ from those of the screen. */
function cssOf({ style, width, length }, { foreground, background }) {
  return [
    style.text !== foreground && `color:${style.text}`,
    style.background !== background && `background:${style.background}`,
    style.bold && "font-weight:bold",
    style.italic && "font-style:italic",
    style.underline && "text-decoration:underline",
    style.opacity !== 1 && `opacity:${style.opacity}`,
    width !== length && `display:inline-block;width:${width}ch`,
  ].filter(Boolean).join(";");
}

function htmlOfRun(run, colors) {
  const css = cssOf(run, colors), text = escaped(run.text);
  return css === "" ? text : `<span style="${escaped(css)}">${text}</span>`;
}

/** Returns the displayed rows of a screen as an element of HTML. */
export function htmlOf(screen, options = {}) {
  const colors = colorsOf(options), { cols } = screen.size;
  const rows = screen.allCells().map((cells) => {
    const runs = trimmed(runsOf(cells, colors), colors);
    return runs.map((run) => htmlOfRun(run, colors)).join("");
  });
  const css = `color:${colors.foreground};background:${colors.background};width:${cols}ch;font-family:${FONT}`;
  // HTML ignores a newline after the start tag.
  return `<pre style="${escaped(css)}">\n${rows.join("\n")}</pre>`;
}

/** Returns the part of a run that must be drawn as text: all of it if it is underlined, and otherwise not its ends' blanks. */
function inkOf({ col, width, text, style }) {
  if (style.underline) return { col, width, text };
  const before = text.length - text.replace(/^ +/, "").length, ink = text.replace(/^ +| +$/g, "");
  return { col: col + before, width: width - (text.length - ink.length), text: ink };
}

/** Returns text in which no blanks are collapsed: browsers ignore the attribute of XML for that. */
function withFixedBlanks(text) {
  return text.replace(/ {2,}|^ | $/g, ({ length }) => "\u00a0".repeat(length));
}

/** Returns the elements of SVG that draw a run in a row. */
function svgOfRun(run, row, { background, foreground }) {
  const { style } = run, y = CELL_HEIGHT * row;
  const area = style.background === background ? ""
    : `<rect x="${CELL_WIDTH * run.col}" y="${y}" width="${CELL_WIDTH * run.width}" height="${CELL_HEIGHT}"`
      + ` fill="${escaped(style.background)}"/>`;
  const { col, width, text } = inkOf(run);
  if (text === "") return area;
  const attributes = [
    style.text !== foreground && `fill="${escaped(style.text)}"`,
    style.bold && 'font-weight="bold"',
    style.italic && 'font-style="italic"',
    style.underline && 'text-decoration="underline"',
    style.opacity !== 1 && `opacity="${style.opacity}"`,
  ].filter(Boolean).map((attribute) => ` ${attribute}`).join("");
  const place = `x="${CELL_WIDTH * col}" y="${y + BASELINE}" textLength="${CELL_WIDTH * width}"`;
  return `${area}<text ${place} lengthAdjust="spacingAndGlyphs"${attributes}>${escaped(withFixedBlanks(text))}</text>`;
}

/** Returns the displayed rows of a screen as a picture in SVG. */
export function svgOf(screen, options = {}) {
  const colors = colorsOf(options), { rows, cols } = screen.size;
  const width = CELL_WIDTH * cols, height = CELL_HEIGHT * rows;
  const lines = screen.allCells().map((cells, row) =>
    runsOf(cells, colors).map((run) => svgOfRun(run, row, colors)).join("")).filter(Boolean);
  return [
    `<svg xmlns="http://www.w3.org/2000/svg" width="${width}" height="${height}" viewBox="0 0 ${width} ${height}"`
      + ` font-family="${escaped(FONT)}" font-size="${FONT_SIZE}" fill="${escaped(colors.foreground)}">`,
    `<rect width="${width}" height="${height}" fill="${escaped(colors.background)}"/>`,
    ...lines,
    "</svg>\n",
  ].join("\n");
}
