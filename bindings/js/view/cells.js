// The records of cells that Screen.rowBytes returns (vt100_cell in vt100.h).

/** The length of a record in bytes. */
export const CELL_SIZE = 40;

/** Bits of the flags of a cell. */
export const BOLD = 1;
export const DIM = 2;
export const ITALIC = 4;
export const UNDERLINE = 8;
export const INVERSE = 16;
export const WIDE = 32;
export const CONTINUATION = 64;

/** Offsets within a record: the length of the text, the flags, and the colors. */
export const LEN = 30;
export const FLAGS = 31;
export const FGCOLOR = 32;
export const BGCOLOR = 36;

// Without ignoreBOM, the decoder would drop a cell's U+FEFF.
const decoder = new TextDecoder("utf-8", { ignoreBOM: true });

/** Returns the text of the cell in a column; it is empty if nothing was written to the cell. */
export function textAt(records, col) {
  const at = CELL_SIZE * col, len = records[at + LEN];
  if (len <= 1) return len === 0 ? "" : String.fromCharCode(records[at]);
  return decoder.decode(records.subarray(at, at + len));
}

/** Returns the flags of the cell in a column, or 0 if there is no such cell. */
export function flagsAt(records, col) {
  return records[CELL_SIZE * col + FLAGS] ?? 0;
}

/** Returns the text of a row, with spaces for blank cells and without blanks at the end. */
export function rowText(records) {
  let text = "";
  for (let col = 0; CELL_SIZE * col < records.length; col++) {
    if (!(flagsAt(records, col) & CONTINUATION)) text += textAt(records, col) || " ";
  }
  return text.trimEnd();
}

/** Returns whether two rows have equal cells in the columns from `start` up to but excluding `end`. */
export function hasEqualCells(left, right, start, end) {
  for (let at = CELL_SIZE * start; at < CELL_SIZE * end; at++) {
    if (left[at] !== right[at]) return false;
  }
  return true;
}

/** Returns whether a cell is blank or one ASCII character in one column. */
function isSimple(records, col) {
  return records[CELL_SIZE * col + LEN] <= 1 && !(flagsAt(records, col) & (WIDE | CONTINUATION));
}

/** Returns whether two cells have the same flags and colors. */
function hasSameLook(records, left, right) {
  const a = CELL_SIZE * left, b = CELL_SIZE * right;
  for (let offset = FLAGS; offset < BGCOLOR + 4; offset++) {
    if (records[a + offset] !== records[b + offset]) return false;
  }
  return true;
}

/** Returns whether the character in a column, of which the column may be either half, is selected. */
function isSelectedAt(records, col, selected) {
  const [start, end] = selected;
  const first = flagsAt(records, col) & CONTINUATION && col > 0 ? col - 1 : col;
  const last = flagsAt(records, col) & WIDE ? col + 1 : col;
  return last >= start && first < end;
}

/** The empty range of columns. */
export const NO_COLUMNS = Object.freeze([0, 0]);

/**
 * Returns the runs of a row, from left to right. A run is drawn at once: the blank and ASCII cells next to each other
 * that have the same attributes, or any other cell alone. `selected` is the range of selected columns.
 */
export function runsOf(records, selected = NO_COLUMNS) {
  const cols = records.length / CELL_SIZE, runs = [];
  for (let col = 0; col < cols;) {
    const isSelected = isSelectedAt(records, col, selected), simple = isSimple(records, col);
    let text = textAt(records, col), end = col + 1;
    if (simple) {
      text ||= " ";
      while (end < cols && isSimple(records, end) && hasSameLook(records, col, end)
        && isSelectedAt(records, end, selected) === isSelected) {
        text += textAt(records, end++) || " ";
      }
    } else if (flagsAt(records, col) & WIDE) {
      end = Math.min(col + 2, cols);
    }
    runs.push({ col, width: end - col, text, isSimple: simple, isSelected, flags: flagsAt(records, col) });
    col = end;
  }
  return runs;
}
