// Makes records of cells for tests, byte by byte as vt100.h describes vt100_cell.

const encoder = new TextEncoder();

/** Writes a color: null, an index, or three components. */
function putColor(record, at, color) {
  if (color === null) return;
  if (typeof color === "number") record.set([1, color, 0, 0], at);
  else record.set([2, ...color], at);
}

/** Returns the 40 bytes of a cell. */
export function record({ text = "", flags = 0, fgcolor = null, bgcolor = null } = {}) {
  const bytes = new Uint8Array(40), encoded = encoder.encode(text);
  bytes.set(encoded);
  bytes[30] = encoded.length;
  bytes[31] = flags;
  putColor(bytes, 32, fgcolor);
  putColor(bytes, 36, bgcolor);
  return bytes;
}

/** Returns the records of a row. A string stands for a cell with this text. */
export function row(...cells) {
  const records = new Uint8Array(40 * cells.length);
  cells.forEach((cell, col) => records.set(record(typeof cell === "string" ? { text: cell } : cell), 40 * col));
  return records;
}
