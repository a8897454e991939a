// Random input through the module and through the native library: every output is the same.
//
// VT100_LIBRARY is the shared object of the native library, which random.py calls through the Python package.

import assert from "node:assert/strict";
import { spawnSync } from "node:child_process";
import { createHash } from "node:crypto";
import { mkdtempSync, rmSync, writeFileSync } from "node:fs";
import { tmpdir } from "node:os";
import { join } from "node:path";
import { test } from "node:test";
import { fileURLToPath } from "node:url";
import { vt100 } from "./module.js";

const COUNT = 20000;
const ROWS = 11;
const COLS = 23;
const SCROLLBACK = 7;

/** The number of inputs after which a digest of all output so far is compared. */
const STRIDE = 500;

/** Parts of which inputs consist: starts, middles and ends of sequences, and text of each width. */
const PARTS = [
  ..."\x1b[ \x1b] \x1b]0; \x1bP \x1b7 \x1b8 \x1bM \x1bc \x1b\\ \x07 \x18 \x9b".split(" "),
  ..."m H J K L M @ P X S T r h l A B C D E F G d b n q t u".split(" "),
  ..."; : ? ! 0 1 2 7 12 99 38;5; 48;2;1;2;3m ?1049h ?1049l ?25l ?6h ?6l 2;5r 3J".split(" "),
  ..."\u4e2d \u00e9 e\u0301 \ufe0f \u2764 \u231a \u{1f600} \u{1f1e9} \u200d a word \u00ad \u0085".split(" "),
  " ",
  "\r\n",
  "\n",
  "\t",
  "\b",
];

/** Returns a generator of integers below a bound: xorshift with 32 bits. */
function numbers(seed) {
  let state = seed;
  return (bound) => {
    state ^= state << 13;
    state ^= state >>> 17;
    state ^= state << 5;
    return (state >>> 0) % bound;
  };
}

/** Returns random inputs, some of which end within a character. */
function randomInputs(seed) {
  const next = numbers(seed);
  const encoder = new TextEncoder();
  return Array.from({ length: COUNT }, () => {
    const parts = Array.from({ length: next(30) + 1 }, () => PARTS[next(PARTS.length)]);
    const bytes = encoder.encode(parts.join(""));
    return next(4) === 0 ? bytes.subarray(0, next(bytes.length) + 1) : bytes;
  });
}

/** Returns a digest of all output after each STRIDE inputs. */
function digests(inputs) {
  const hash = createHash("sha256");
  const parser = new vt100.Parser(ROWS, COLS, { scrollback: SCROLLBACK });
  let prev = parser.shownCopy();
  const found = [];
  inputs.forEach((input, k) => {
    parser.process(input);
    hash.update(parser.contentsFormatted() + parser.contentsDiffScrolling(prev) + parser.contents());
    prev.free();
    prev = parser.shownCopy();
    if (k % STRIDE === STRIDE - 1) found.push(hash.copy().digest("hex"));
  });
  return found;
}

/** Returns the digests that the native library's output has. */
function nativeDigests(inputs, folder) {
  const file = join(folder, "inputs");
  const lengths = Uint32Array.from(inputs, (input) => input.length);
  writeFileSync(file, Buffer.concat([new Uint8Array(lengths.buffer), ...inputs]));
  const script = fileURLToPath(new URL("random.py", import.meta.url));
  const words = ["-B", script, file, COUNT, STRIDE, ROWS, COLS, SCROLLBACK].map(String);
  const run = spawnSync("python3", words, { encoding: "utf8" });
  assert.equal(run.status, 0, run.stderr);
  return run.stdout.trim().split("\n");
}

const left = process.env.VT100_LIBRARY ? false : "VT100_LIBRARY names no native library";
test(`${COUNT} random inputs give what the native library gives`, { skip: left }, () => {
  const folder = mkdtempSync(join(tmpdir(), "vt100-"));
  try {
    const inputs = randomInputs(Number(process.env.VT100_SEED ?? 20261129));
    const native = nativeDigests(inputs, folder);
    assert.equal(native.length, COUNT / STRIDE);
    digests(inputs).forEach((digest, k) => assert.equal(digest, native[k], `inputs up to ${(k + 1) * STRIDE}`));
  } finally {
    rmSync(folder, { recursive: true });
  }
});
