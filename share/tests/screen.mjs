// screen.mjs MODULE: reads the messages of a server of vt100-share, and what a viewer must display after them, as the
// screen of the page of vt100-share does. MODULE is vt100.wasm. Standard input has JSON: `messages` (base64), `contents` (a
// redraw with input modes), and `rows` (the last rows of the scrollback: their texts).

import assert from "node:assert/strict";
import { readFileSync } from "node:fs";
import { load } from "../../bindings/js/vt100.js";
import { SharedScreen } from "../vt100_share/page/screen.js";

const { messages, contents, rows } = JSON.parse(readFileSync(0, "utf8"));
let shown = null, now = 0;
const view = { attach: (screen) => (shown = screen), requestDraw: () => {} };
const screen = new SharedScreen(await load(readFileSync(process.argv[2])), view);

/** Returns the displayed rows that have scrolled off, as text: at most `count`, and each in `cols` columns. */
const texts = (count, cols) => shown.rows(0, cols).slice(0, Math.min(count, shown.scrollback)).map((text) => text.trimEnd());

for (const message of messages) {
  const bytes = Buffer.from(message, "base64"), old = shown?.size;
  const before = shown?.scrollback > 0 ? [shown.scrollback, texts(old.rows, old.cols)] : null;
  switch (String.fromCharCode(bytes[0])) {
    case "F": screen.redraw(bytes.readUInt16BE(1), bytes.readUInt16BE(3), bytes.subarray(5)); break;
    case "D": screen.update(bytes.subarray(1)); break;
    case "H":
      screen.scrolled(bytes.readUInt32BE(1), bytes.readUInt16BE(5), bytes.readUInt16BE(7), bytes.subarray(9));
      break;
    default:
  }
  // Now and then, the display is scrolled back. What it displays of the scrollback does not change then, but it may be cut
  // off at another size.
  if (before !== null && shown.scrollback > 0) {
    const cols = Math.min(old.cols, shown.size.cols), count = Math.min(old.rows, shown.size.rows, before[0]);
    const cut = before[1].slice(0, count).map((text) => text.slice(0, cols).trimEnd());
    assert.deepEqual(texts(count, cols), cut);
  }
  now += 1;
  if (shown !== null && now % 7 === 0) shown.setScrollback(now % 3 === 0 ? 0 : now % 200);
}
shown.setScrollback(0);
assert.equal(shown.stateFormatted(), contents);

const kept = [];
for (let left = shown.scrollbackLen; left > 0; left--) {
  shown.setScrollback(left);
  kept.push(shown.rows()[0]);
}
assert.ok(kept.length >= rows.length);
assert.deepEqual(kept.slice(kept.length - rows.length), rows);
