// The colors with which screens are drawn, on pages and in pictures, unless a theme has others.

/** The colors of text and background, and the opacity of dim text. */
export const FOREGROUND = "#d4d4d4", BACKGROUND = "#101010", DIM_OPACITY = 0.6;

/** The palette's first 16 colors. */
const NAMED = [
  "#000000", "#cd3131", "#0dbc79", "#c5b000", "#2472c8", "#bc3fbc", "#11a8cd", "#d5d5d5",
  "#666666", "#f14c4c", "#23d18b", "#f5f543", "#3b8eea", "#d670d6", "#29b8db", "#ffffff",
];

/** Returns the color of a palette index from 16 on: xterm's 6x6x6 cube, followed by 24 grays. */
function indexedColor(index) {
  if (index >= 232) {
    const gray = 8 + 10 * (index - 232);
    return `rgb(${gray},${gray},${gray})`;
  }
  const level = (part) => (part === 0 ? 0 : 55 + 40 * part), offset = index - 16;
  return `rgb(${level(Math.floor(offset / 36))},${level(Math.floor(offset / 6) % 6)},${level(offset % 6)})`;
}

const PALETTE = Object.freeze(Array.from({ length: 256 }, (_, index) => NAMED[index] ?? indexedColor(index)));

function checkString(name, value) {
  if (typeof value !== "string") throw new TypeError(`${name} must be a string, not ${value === null ? "null" : typeof value}`);
}

/** Throws an error unless the values of some properties of a theme have the right types. `colors` are those that are colors. */
export function checkTheme(colors, { dimOpacity, palette }) {
  for (const [name, value] of Object.entries(colors)) checkString(name, value);
  if (typeof dimOpacity !== "number") throw new TypeError(`dimOpacity must be a number, not ${typeof dimOpacity}`);
  if (!(dimOpacity >= 0 && dimOpacity <= 1)) throw new RangeError(`dimOpacity must be from 0 to 1, not ${dimOpacity}`);
  if (!Array.isArray(palette)) throw new TypeError("palette must be an array of colors");
  for (const color of palette) checkString("a color of the palette", color);
}

/** Returns all 256 colors, of which `colors` has some, from index 0 on. */
export function paletteOf(colors = []) {
  return Object.freeze(PALETTE.map((color, index) => colors[index] ?? color));
}
