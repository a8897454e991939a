// The module under test: the file that VT100_WASM names, or vt100.wasm beside vt100.js.

import { readFile } from "node:fs/promises";
import { pathToFileURL } from "node:url";
import { load } from "../vt100.js";

export const source = process.env.VT100_WASM
  ? pathToFileURL(process.env.VT100_WASM)
  : new URL("../vt100.wasm", import.meta.url);

/** Returns the bytes of the module. */
export function moduleBytes() {
  return readFile(source);
}

export const vt100 = await load(source);

/** Returns a parser that has read `text`. */
export function screenOf(text, rows = 3, cols = 10, options = {}) {
  const parser = new vt100.Parser(rows, cols, options);
  parser.process(text);
  return parser;
}

/** Whether an error is a Vt100Error with a status. */
export const hasStatus = (status) => (error) => error instanceof vt100.Vt100Error && error.status === status;

const ID_OF_MEMORY = 5;
const HAS_MAXIMUM = 1;

/**
 * Returns the module with a maximum number of pages of 64 KiB for its memory, which the engine then does not exceed.
 *
 * A module is a header of 8 bytes and sections, each with its id, its length and its contents; numbers are LEB128.
 */
export async function moduleWithMaximum(pages) {
  const bytes = await moduleBytes();
  const parts = [bytes.subarray(0, 8)];
  for (let at = 8; at < bytes.length; ) {
    const [len, start] = numberAt(bytes, at + 1);
    const contents = bytes.subarray(start, start + len);
    parts.push(bytes[at] === ID_OF_MEMORY ? memorySection(contents, pages) : bytes.subarray(at, start + len));
    at = start + len;
  }
  return Buffer.concat(parts);
}

/** Returns the section of a memory with the given maximum, from the contents of one without. */
function memorySection(contents, pages) {
  const [count, flags] = contents;
  if (count !== 1 || (flags & HAS_MAXIMUM) !== 0) throw new Error("the module has another memory");
  const [, end] = numberAt(contents, 2);
  const limits = [count, flags | HAS_MAXIMUM, ...contents.subarray(2, end), ...leb128(pages)];
  return Buffer.from([ID_OF_MEMORY, ...leb128(limits.length), ...limits]);
}

/** Returns the number at an index, and the index after it. */
function numberAt(bytes, at) {
  let number = 0;
  for (let shift = 0; ; shift += 7, at++) {
    number |= (bytes[at] & 0x7f) << shift;
    if (bytes[at] < 0x80) return [number, at + 1];
  }
}

function leb128(number) {
  return number < 0x80 ? [number] : [(number & 0x7f) | 0x80, ...leb128(number >> 7)];
}
