// Reads the structures of vt100.h: cells, colors and the state of a screen.

import { textOf, wordOf } from "./instance.js";

/** The size of a cell's record in bytes. */
export const CELL_SIZE = 40;

const BOLD = 1;
const DIM = 2;
const ITALIC = 4;
const UNDERLINE = 8;
const INVERSE = 16;
const WIDE = 32;
const WIDE_CONTINUATION = 64;

/** A cell of a screen. */
export class Cell {
  /** Reads the record at an address. */
  constructor(bytes, at) {
    const flags = bytes[at + 31];
    this.text = textOf(bytes, at, bytes[at + 30]);
    this.fgcolor = colorOf(bytes, at + 32);
    this.bgcolor = colorOf(bytes, at + 36);
    this.bold = (flags & BOLD) !== 0;
    this.dim = (flags & DIM) !== 0;
    this.italic = (flags & ITALIC) !== 0;
    this.underline = (flags & UNDERLINE) !== 0;
    this.inverse = (flags & INVERSE) !== 0;
    this.wide = (flags & WIDE) !== 0;
    this.wideContinuation = (flags & WIDE_CONTINUATION) !== 0;
  }
}

/** Returns the cells of an array of records. */
export function cellsOf(bytes, at, count) {
  return Array.from({ length: count }, (_, col) => new Cell(bytes, at + CELL_SIZE * col));
}

function colorOf(bytes, at) {
  switch (bytes[at]) {
    case 0:
      return null;
    case 1:
      return bytes[at + 1];
    default:
      return [bytes[at + 1], bytes[at + 2], bytes[at + 3]];
  }
}

/** Reads the record of a state at an address. */
export function stateOf(bytes, view, at) {
  const flags = bytes[at + 16];
  return {
    rows: view.getUint16(at, true),
    cols: view.getUint16(at + 2, true),
    cursorRow: view.getUint16(at + 4, true),
    cursorCol: view.getUint16(at + 6, true),
    alternateScreen: bytes[at + 8] === 1,
    applicationKeypad: bytes[at + 9] === 1,
    applicationCursor: bytes[at + 10] === 1,
    hideCursor: bytes[at + 11] === 1,
    bracketedPaste: bytes[at + 12] === 1,
    mouseProtocolMode: bytes[at + 13],
    mouseProtocolEncoding: bytes[at + 14],
    cursorStyle: bytes[at + 15],
    bold: (flags & BOLD) !== 0,
    dim: (flags & DIM) !== 0,
    italic: (flags & ITALIC) !== 0,
    underline: (flags & UNDERLINE) !== 0,
    inverse: (flags & INVERSE) !== 0,
    fgcolor: colorOf(bytes, at + 20),
    bgcolor: colorOf(bytes, at + 24),
    scrollback: wordOf(view, at + 32),
    scrollbackLen: wordOf(view, at + 40),
    scrollbackCapacity: wordOf(view, at + 48),
  };
}

/** The properties of a state other than the size and the cursor's position. */
export const PROPERTIES = [
  "alternateScreen",
  "applicationKeypad",
  "applicationCursor",
  "hideCursor",
  "bracketedPaste",
  "mouseProtocolMode",
  "mouseProtocolEncoding",
  "cursorStyle",
  "bold",
  "dim",
  "italic",
  "underline",
  "inverse",
  "fgcolor",
  "bgcolor",
  "scrollback",
  "scrollbackLen",
  "scrollbackCapacity",
];
