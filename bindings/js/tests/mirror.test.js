// Mirrors and their viewers.

import assert from "node:assert/strict";
import { test } from "node:test";
import { vt100 } from "./module.js";

const { Mirror, Parser, Repeat } = vt100;

test("updates keep a viewer's terminal", () => {
  const mirror = new Mirror(24, 80);
  const viewer = mirror.join();
  const terminal = new Parser(24, 80);
  mirror.process("one\r\ntwo");
  assert.equal(mirror.isCurrent(viewer), false);
  const redraw = mirror.update(viewer);
  assert.deepEqual(redraw.size, { rows: 24, cols: 80 });
  terminal.process(redraw.text);
  assert.equal(mirror.isCurrent(viewer), true);
  mirror.process(" and \x1b[1mmore\x1b[m");
  const diff = mirror.updateScrolling(viewer);
  assert.equal(diff.size, null);
  terminal.process(diff.text);
  assert.equal(terminal.contents(), "one\ntwo and more");
  assert.deepEqual(mirror.updateWith(viewer, { scroll: true, repeat: Repeat.ANY }), { text: "", size: null });
});

test("portable updates", () => {
  const mirror = new Mirror(2, 10);
  mirror.process("\x1b[2ma\x1b[22;1mb");
  const first = mirror.join(), second = mirror.join();
  const clear = "\x1b[?25h\x1b[m\x1b[H\x1b[J";
  assert.equal(mirror.updateWith(first, { portable: true }).text, clear + "\x1b[2ma\x1b[m\x1b[1mb");
  assert.equal(mirror.updateWith(second).text, clear + "\x1b[2ma\x1b[1mb");
  mirror.process("\x1b[22;2mc");
  assert.deepEqual(mirror.updateWith(first, { portable: true }), { text: "\x1b[m\x1b[2mc", size: null });
  assert.deepEqual(mirror.update(second), { text: "\x1b[2mc", size: null });
});

test("sizes have two bytes", () => {
  const mirror = new Mirror(300, 500);
  assert.deepEqual(mirror.update(mirror.join()).size, { rows: 300, cols: 500 });
});

test("viewers join, and the mirror is resized", () => {
  const mirror = new Mirror(2, 10, { scrollback: 5 });
  const first = mirror.join();
  mirror.update(first);
  const second = mirror.join();
  assert.notEqual(first, second);
  mirror.process("a\r\nb\r\nc");
  assert.deepEqual(mirror.update(second).size, { rows: 2, cols: 10 });
  mirror.setSize(3, 12);
  const update = mirror.update(first);
  assert.deepEqual(update.size, { rows: 3, cols: 12 });
  const terminal = new Parser(3, 12);
  terminal.process(update.text);
  assert.equal(terminal.contents(), "a\nb\nc");
});
