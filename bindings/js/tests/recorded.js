// Reads the recorded cases (crates/test_cases/README.md), and writes a screen and its callbacks in their format.

import assert from "node:assert/strict";
import { readFileSync } from "node:fs";
import { vt100 } from "./module.js";

const DATA = new URL("../../../crates/test_cases/data/", import.meta.url);
const MOUSE_MODES = ["None", "Press", "PressRelease", "ButtonMotion", "AnyMotion"];
const ENCODINGS = ["Default", "Utf8", "Sgr"];
const ESCAPES = { 9: "\\t", 10: "\\n", 13: "\\r", 34: '\\"', 39: "\\'", 92: "\\\\" };
const SGR = /\x1b\[[0-9;]*m/g;

/** The first words of the lines that describe a screen and its callbacks, rather than its output. */
export const STATE = ["size", "scrollback", "lengths", "cursor", "flags", "cell", "screen", "event", "scroll"];

/** Returns, for each case of a file, the words of its first line, and its other lines. */
export function blocks(name) {
  const text = readFileSync(new URL(`${name}.cases`, DATA), "ascii");
  return text.slice(2).split("\n= ").map((block) => {
    const [head, ...lines] = block.replace(/\n$/, "").split("\n");
    return { head: head.split(" "), lines };
  });
}

export function unhex(word) {
  return word === "." ? new Uint8Array() : Uint8Array.from(Buffer.from(word, "hex"));
}

export function hexed(text) {
  return Buffer.from(text).toString("hex") || ".";
}

function colorText(color) {
  if (color === null) return "default";
  return Array.isArray(color) ? `rgb:${color.join(":")}` : String(color);
}

function attributesText({ bold, dim, italic, underline, inverse }) {
  const named = { b: bold, d: dim, i: italic, u: underline, v: inverse };
  return Object.keys(named).filter((letter) => named[letter]).join("") || "-";
}

function cellLine(row, col, cell) {
  const kind = cell.wide ? "w" : cell.wideContinuation ? "r" : "n";
  const colors = [colorText(cell.fgcolor), colorText(cell.bgcolor)];
  return ["cell", row, col, hexed(cell.text), kind, ...colors, attributesText(cell)].join(" ");
}

const BLANK_LINE = " . n default default -";

/** Returns all cells of a row, which may be longer than the screen is wide. */
function cellsOfRow(screen, row) {
  const cells = [];
  for (let col = 0, cell; (cell = screen.cell(row, col)) !== undefined; col++) cells.push(cell);
  const inBulk = screen.cells(row);
  assert.deepEqual(cells.slice(0, inBulk.length), inBulk);
  return cells;
}

/** Returns the lines that describe the cursor, the wrapped flags and the cells. */
export function picture(screen) {
  const { row, col } = screen.cursor;
  const rows = Array.from({ length: screen.size.rows }, (_, k) => k);
  assert.deepEqual(screen.allCells(), rows.map((k) => screen.cells(k)));
  const flags = rows.map((k) => Number(screen.rowWrapped(k))).join("");
  const cells = rows.flatMap((k) => cellsOfRow(screen, k).map((cell, at) => cellLine(k, at, cell)));
  return [`cursor ${row} ${col}`, `flags ${flags}`, ...cells.filter((line) => !line.endsWith(BLANK_LINE))];
}

/** Returns the line that describes the modes and the attributes of the next character. */
export function modes(screen) {
  const names = ["hideCursor", "alternateScreen", "applicationKeypad", "applicationCursor", "bracketedPaste"];
  const { fgcolor, bgcolor, mouseProtocolMode, mouseProtocolEncoding, cursorStyle } = screen;
  const words = [
    ...names.map((name) => Number(screen[name])),
    MOUSE_MODES[mouseProtocolMode],
    ENCODINGS[mouseProtocolEncoding],
    cursorStyle,
    colorText(fgcolor),
    colorText(bgcolor),
    attributesText(screen.state),
  ];
  return [["screen", ...words].join(" ")];
}

/** Returns the lines that describe the size and the scrollback. */
export function sizes(screen) {
  const { rows, cols, scrollback, scrollbackLen, scrollbackCapacity } = screen.state;
  const lengths = Array.from({ length: rows }, (_, row) => cellsOfRow(screen, row).length);
  return [
    `size ${rows} ${cols}`,
    `scrollback ${scrollback} ${scrollbackLen} ${scrollbackCapacity}`,
    ["lengths", ...lengths].join(" "),
  ];
}

/**
 * Returns a line in the form in which this package reports it. For a row that scrolled off, it reports the plain text
 * without trailing blanks, while the recorded text has SGR sequences, and blanks for colored cells without text.
 */
export function plain(line) {
  if (!line.startsWith("scroll ")) return line;
  const [word, text, alternate] = line.split(" ");
  const written = Buffer.from(unhex(text)).toString().replace(SGR, "").replace(/ +$/, "");
  return [word, hexed(written), alternate].join(" ");
}

function quoted(bytes) {
  const chars = [...bytes].map((byte) => {
    const printed = byte >= 32 && byte < 127 ? String.fromCharCode(byte) : `\\x${byte.toString(16).padStart(2, "0")}`;
    return ESCAPES[byte] ?? printed;
  });
  return `"${chars.join("")}"`;
}

const optionText = (number) => (number === null ? "None" : `Some(${number})`);
const groupsText = (groups) => `[${groups.map((numbers) => `[${numbers.join(", ")}]`).join(", ")}]`;
const charText = (char) => (char === "\\" ? "'\\\\'" : `'${char}'`);

/** Returns callbacks that add a line in the format of the cases for each call. */
export function notes(lines) {
  const note = (name, ...words) => lines.push(`event ${name}(${words.join(", ")})`);
  return {
    audibleBell: () => note("audible_bell"),
    visualBell: () => note("visual_bell"),
    resize: (_, rows, cols) => note("resize", rows, cols),
    setWindowIconName: (_, name) => note("set_window_icon_name", quoted(name)),
    setWindowTitle: (_, title) => note("set_window_title", quoted(title)),
    copyToClipboard: (_, kind, data) => note("copy_to_clipboard", quoted(kind), quoted(data)),
    pasteFromClipboard: (_, kind) => note("paste_from_clipboard", quoted(kind)),
    unhandledChar: (_, char) => note("unhandled_char", char.codePointAt(0)),
    unhandledControl: (_, control) => note("unhandled_control", control),
    unhandledEscape: (_, first, second, final) =>
      note("unhandled_escape", optionText(first), optionText(second), final),
    unhandledCsi: (_, first, second, params, final) =>
      note("unhandled_csi", optionText(first), optionText(second), groupsText(params), charText(final)),
    unhandledOsc: (_, params) => note("unhandled_osc", ...params.map(quoted)),
    onScroll: (rows) => lines.push(
      ...rows.map(({ text, alternateScreen }) => `scroll ${hexed(text)} ${Number(alternateScreen)}`),
    ),
  };
}

const TEXTS = {
  contents: (screen) => screen.contents(),
  formatted: (screen) => screen.contentsFormatted(),
  basic: (screen) => screen.contentsFormattedBasic(),
  cursor_state: (screen) => screen.cursorStateFormatted(),
  attributes: (screen) => screen.attributesFormatted(),
  input: (screen) => screen.inputModeFormatted(),
  diff: (screen, prev) => screen.contentsDiff(prev),
  input_diff: (screen, prev) => screen.inputModeDiff(prev),
};

const ROWS = {
  rows: (screen, _, ...range) => screen.rows(...range),
  rows_formatted: (screen, _, ...range) => screen.rowsFormatted(...range),
  rows_diff: (screen, prev, ...range) => screen.rowsDiff(prev, ...range),
};

/** Returns the line that describes the output of a screen of the kind that `line` names. */
export function textLine(screen, prev, line) {
  const [name, ...words] = line.split(" ");
  if (name in ROWS) {
    const range = words.slice(0, 2);
    return [name, ...range, ...ROWS[name](screen, prev, ...range.map(Number)).map(hexed)].join(" ");
  }
  if (name === "between") {
    const range = words.slice(0, 4);
    return [name, ...range, hexed(screen.contentsBetween(...range.map(Number)))].join(" ");
  }
  return `${name} ${hexed(TEXTS[name](screen, prev))}`;
}

/** Returns a parser that adds a line to `noted` for each callback. */
export function notingParser(rows, cols, scrollback, noted) {
  return new vt100.Parser(rows, cols, { scrollback, callbacks: notes(noted) });
}
