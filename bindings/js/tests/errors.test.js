// Wrong arguments, freed objects, and objects of two modules.

import assert from "node:assert/strict";
import { test } from "node:test";
import { load } from "../vt100.js";
import { hasStatus, moduleBytes, screenOf, vt100 } from "./module.js";

const { Mirror, Parser, Screen, Vt100Error } = vt100;
const DISPOSE = Symbol.dispose ?? Symbol.for("Symbol.dispose");

test("sizes and positions out of range", () => {
  const parser = screenOf("text");
  const wrong = [
    () => new Parser(0, 80),
    () => new Parser(24, 65536),
    () => new Parser(24, 1.5),
    () => new Parser(24, NaN),
    () => new Parser(24, 80, { scrollback: -1 }),
    () => new Mirror(24, 0),
    () => parser.setSize(0, 1),
    () => parser.setScrollback(-1),
    () => parser.cells(3),
    () => parser.cells(-1),
    () => parser.rowBytes(65536),
    () => parser.rowBytes(0, new Uint8Array(1)),
    () => parser.allBytes(new Uint8Array(1)),
    () => parser.rowWrapped(3),
    () => parser.rows(-1),
    () => parser.rows(0, 65536),
    () => parser.rowsFormatted(10),
    () => parser.contentsBetween(0, 11, 1, 0),
    () => parser.contentsBetween(0, 0, 0, -1),
    () => parser.contentsDiffWith(parser, { repeat: 1 }),
    () => parser.stateDiffWith(parser, { repeat: 1 }),
  ];
  for (const call of wrong) assert.throws(call, RangeError, call.toString());
  assert.equal(parser.contents(), "text");
});

test("no such cell", () => {
  const parser = screenOf("text");
  const places = [[3, 0], [0, 10], [-1, 0], [0, 65536], [0.5, 0]];
  for (const [row, col] of places) assert.equal(parser.cell(row, col), undefined);
});

test("arguments of the wrong type", () => {
  const parser = screenOf("text");
  const mirror = new Mirror();
  const wrong = [
    () => new Parser("24", 80),
    () => new Parser(24, 80, 1000),
    () => new Parser(24, 80, null),
    () => new Parser(24, 80, { scrolback: 5 }),
    () => new Parser(24, 80, { scrollback: 5n }),
    () => new Parser(24, 80, { scrollback: 2n ** 64n }),
    () => new Parser(24, 80, { scrollback: "1e400" }),
    () => new Parser(24, 80, { scrollback: [1e20] }),
    () => new Parser(24, 80, { callbacks: null }),
    () => new Parser(24, 80, { callbacks: () => {} }),
    () => new Parser(24, 80, { callbacks: { audibleBell: null } }),
    () => new Parser(24, 80, { callbacks: { eventsLost: 1 } }),
    () => new Parser(24, 80, { callbacks: { onScrol() {} } }),
    () => new Mirror(24, 80, 1000),
    () => new Mirror(24, 80, { callbacks: {} }),
    () => parser.cell("a", 0),
    () => parser.cell(0, "0"),
    () => parser.cell(),
    () => parser.rowBytes(0, []),
    () => parser.allBytes(new Uint16Array(1200)),
    () => parser.contentsFormattedWith({ portabel: true }),
    () => parser.contentsFormattedWith({ portable: 1 }),
    () => parser.contentsDiffWith(parser, { scroll: "no" }),
    () => parser.contentsDiffWith(parser, { repeat: "ANY" }),
    () => parser.contentsDiffWith(parser, true),
    () => parser.find(5),
    () => parser.toSvg({ cursor: true }),
    () => parser.toHtml({ theme: null }),
    () => new Screen(),
    () => parser.process(7),
    () => parser.process(null),
    () => parser.process([1, 2]),
    () => parser.setScrollback("1"),
    () => parser.contentsDiff(mirror),
    () => parser.contentsDiff(undefined),
    () => parser.swap({}),
    () => mirror.update(1),
  ];
  for (const call of wrong) assert.throws(call, TypeError, call.toString());
  assert.equal(parser.contents(), "text");
});

test("callbacks may have data and inherited members of their own", () => {
  class Bells {
    count = 0;
    add() {
      this.count++;
    }
    audibleBell() {
      this.add();
    }
  }
  const callbacks = new Bells();
  new Parser(3, 10, { callbacks }).process("\x07\x07");
  assert.equal(callbacks.count, 2);
});

test("screens of different sizes", () => {
  const parser = screenOf("text");
  const other = screenOf("", 3, 11);
  const diffs = ["contentsDiff", "contentsDiffScrolling", "contentsDiffWith", "stateDiff", "stateDiffWith", "rowsDiff"];
  for (const name of diffs) {
    assert.throws(() => parser[name](other), hasStatus(5), name);
  }
  assert.equal(parser.inputModeDiff(other), "");
});

test("freed objects", () => {
  const parser = screenOf("text");
  const saved = parser.save();
  parser.free();
  parser.free();
  saved[DISPOSE]();
  assert.ok(parser.isFreed && saved.isFreed);
  const calls = [
    () => parser.contents(),
    () => parser.process("x"),
    () => parser.cell(0, 0),
    () => parser.size,
    () => parser.dirty(),
    () => parser.setSize(1, 1),
    () => screenOf("").contentsDiff(saved),
  ];
  for (const call of calls) assert.throws(call, hasStatus(6), call.toString());
});

test("a parser that one of its callbacks frees", () => {
  const parser = new Parser(3, 10, { callbacks: { audibleBell: (screen) => screen.free() } });
  assert.throws(() => parser.process("a\x07b\x07"), hasStatus(6));
  assert.ok(parser.isFreed);
});

test("screens of two modules are not combined", async () => {
  const other = await load(await moduleBytes());
  const theirs = new other.Parser(3, 10);
  const parser = screenOf("text");
  assert.throws(() => parser.contentsDiff(theirs), TypeError);
  assert.throws(() => theirs.swap(parser), TypeError);
});

test("numbers of viewers", () => {
  const mirror = new Mirror();
  const viewer = mirror.join();
  mirror.leave(viewer);
  assert.throws(() => mirror.update(viewer), RangeError);
  assert.throws(() => mirror.leave(viewer), RangeError);
  assert.throws(() => mirror.update(-1n), RangeError);
  assert.throws(() => mirror.update(1n << 64n), RangeError);
  assert.equal(mirror.isCurrent(viewer), false);
});

test("messages and names of errors", () => {
  const parser = screenOf("");
  assert.throws(() => parser.contentsDiff(screenOf("", 1, 1)), {
    name: "Vt100Error",
    message: "the screens have different sizes",
  });
  assert.throws(() => parser.setSize(0, 5), { message: "rows must be an integer from 1 to 65535, not 0" });
  assert.ok(Vt100Error.prototype instanceof Error);
});
