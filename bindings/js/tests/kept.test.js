// Whether anything is half read, and the rows that a screen keeps, displayed or not.

import assert from "node:assert/strict";
import { test } from "node:test";
import { screenOf, vt100 } from "./module.js";

const { Mirror, Parser } = vt100;

// What is read, in order, and whether nothing is half read then.
const READ = [
  ["ab", true],
  ["\x1b", false],
  ["[", false],
  ["3\n", false],
  ["m", true],
  ["\x1b(", false],
  ["B", true],
  ["\x1b[?25", false],
  ["\x18", true],
  ["\x1b]0;title", false],
  ["\x1b", false],
  ["\\", true],
  ["\x1bPdata", false],
  ["\x07", false],
  ["\x1a", true],
  [[0xe2, 0x8c], false],
  ["x", true],
  [[0xf0, 0x9f], false],
  ["\x1b", false],
  ["c", true],
  [[0xff], true],
];

test("whether a parser or a mirror is in ground state", () => {
  const callbacks = { audibleBell() {} };
  for (const reader of [new Parser(2, 8), new Parser(2, 8, { callbacks }), new Mirror(2, 8)]) {
    assert.equal(reader.isGround, true);
    for (const [data, isGround] of READ) {
      reader.process(typeof data === "string" ? data : Uint8Array.from(data));
      assert.equal(reader.isGround, isGround, JSON.stringify(data));
    }
    reader.free();
    assert.throws(() => reader.isGround, /freed/);
  }
});

test("how often scrollback was erased", () => {
  const parser = new Parser(2, 8, { scrollback: 9 });
  for (const [data, count] of [
    ["a\r\nb\r\n", 0],
    ["\x1b[3", 0],
    ["J", 1],
    ["\x1b[?3J\x1b[03;9J", 3],
    ["\x1bc", 4],
    ["\x1b[2J\x1b[33J\x1b[;3J\x1b[3K\x1b[>3J\x1b(c", 4],
    ["\x1b[?1049h\x1b[3J", 5],
  ]) {
    parser.process(data);
    assert.equal(parser.scrollbackErasures, count, JSON.stringify(data));
  }
  parser.clearScrollback();
  assert.equal(parser.scrollbackErasures, 5);
  parser.free();
  assert.throws(() => parser.scrollbackErasures, /freed/);
});

/** Returns the text of the cells of each kept row, and "+" if the row is wrapped, and checks the plain text. */
function keptRows(screen) {
  const found = [];
  for (let row = 0; ; row++) {
    const kept = screen.keptRow(row);
    if (kept === undefined) break;
    const cells = kept.cells.map((cell) => cell.text || (cell.wideContinuation ? "" : " ")).join("");
    found.push(cells + (kept.wrapped ? "+" : ""));
    assert.equal(screen.keptText(row), cells.trimEnd());
  }
  assert.equal(screen.keptText(found.length), undefined);
  return found;
}

test("rows of scrollback and of the page", () => {
  const parser = screenOf("ab\r\nwxyz\u4e2d!\r\n\r\ncd\r\n\x1b[31me", 2, 4, { scrollback: 9 });
  const kept = ["ab", "wxyz+", "\u4e2d!", "", "cd  ", "e   "];
  assert.deepEqual(keptRows(parser), kept);
  const saved = parser.save();
  assert.deepEqual([parser.keptRow(5).cells[0].fgcolor, parser.keptRow(0).cells[0].fgcolor], [1, null]);
  assert.equal(parser.contents(), "cd\ne");
  parser.setScrollback(2);
  assert.equal(parser.contents(), "\u4e2d!");
  assert.deepEqual(keptRows(parser), ["ab", "wxyz+", "\u4e2d! ", "    ", "cd  ", "e   "]);
  assert.deepEqual(keptRows(saved), kept);
  parser.process("\x1b[?1049hpage");
  assert.deepEqual(keptRows(parser), ["page", "    "]);
});

test("a kept row may be wider than the screen, and than the room of a call", () => {
  const parser = new Parser(1, 2000, { scrollback: 3 });
  parser.process("x".repeat(1999) + "y\r\n");
  parser.setSize(1, 4);
  assert.equal(parser.keptRow(0).cells.length, 2000);
  assert.deepEqual([parser.keptRow(0).cells[1998].text, parser.keptRow(0).cells[1999].text], ["x", "y"]);
  assert.equal(parser.keptText(0), "x".repeat(1999) + "y");
});

/** Returns the text of the cells of a row, with a blank for each empty one. */
function textOfCells({ cells }) {
  return cells.map((cell) => cell.text || " ").join("");
}

test("the history is the scrollback, without the page", () => {
  const { history } = screenOf("", 2, 4, { scrollback: 9 });
  assert.deepEqual([history.length, history.at(0), history.slice(), history.rows(), [...history]], [0, undefined, [], [], []]);
  const parser = screenOf("\x1b[31ma\x1b[m\r\nbcdefg\r\nh\r\ni\r\nj", 2, 4, { scrollback: 3 });
  const rows = ["bcde", "fg", "h"];
  assert.equal(parser.history.length, 3);
  assert.deepEqual([...parser.history].map(textOfCells), rows);
  assert.deepEqual(parser.history.slice().map(textOfCells), rows);
  assert.deepEqual(parser.history.rows(), rows);
  assert.deepEqual(parser.history.slice().map(({ wrapped }) => wrapped), [true, false, false]);
  assert.deepEqual([0, 2, -1, -3].map((index) => textOfCells(parser.history.at(index))), ["bcde", "h", "h", "bcde"]);
  for (const index of [3, -4, Infinity]) assert.equal(parser.history.at(index), undefined);
  for (const [start, end] of [[1], [-2], [0, 1], [1, -1], [-9, 2], [1, Infinity], [2, 1], [5, 9], [undefined, 2]]) {
    const expected = rows.slice(start, end);
    assert.deepEqual(parser.history.rows(start, end), expected, `${start} ${end}`);
    assert.deepEqual(parser.history.slice(start, end).map(textOfCells), expected, `${start} ${end}`);
  }
  const saved = parser.save(), { history: before } = parser;
  parser.process("\r\nk");
  assert.deepEqual(before.rows(), ["fg", "h", "i"]);
  assert.deepEqual(saved.history.rows(), rows);
  parser.process("\x1b[?1049h");
  assert.equal(parser.history.length, 0);
});

test("the history keeps rows that are wider than the screen, and what is displayed", () => {
  const parser = new Parser(2, 9, { scrollback: 9 });
  parser.process("\x1b[44m\u4e2d23456789\x1b[m\r\nshort\r\nx\r\ny");
  parser.setSize(2, 3);
  parser.setScrollback(0);
  const wide = ["\u4e2d 2345678", "9", "short"], before = parser.stateFormatted();
  const state = parser.state;
  for (let time = 0; time < 2; time++) {
    assert.deepEqual(parser.history.slice().map(textOfCells), wide);
    assert.deepEqual(parser.history.rows(), ["\u4e2d2345678", "9", "short"]);
    // The continuation cell of a wide character has the default color.
    assert.deepEqual(parser.history.at(0).cells.map(({ bgcolor }) => bgcolor), [4, null, 4, 4, 4, 4, 4, 4, 4]);
  }
  assert.deepEqual([parser.stateFormatted(), parser.state], [before, state]);
  parser.free();
  assert.throws(() => parser.history.length, /freed/);
});

test("reading the history leaves rows wrapped that are narrower than the screen", () => {
  const parser = screenOf("abcdefgh\r\nij\r\nkl", 2, 4, { scrollback: 3 });
  parser.setSize(2, 6);
  const rows = () => parser.history.slice().map(({ cells, wrapped }) => [cells.length, wrapped]);
  assert.deepEqual([rows(), parser.history.rows(), rows()], [[[4, true], [4, false]], ["abcd", "efgh"], [[4, true], [4, false]]]);
});

test("what is no index of a history", () => {
  const { history } = screenOf("a\r\nb\r\nc", 1, 2, { scrollback: 2 });
  for (const index of ["0", undefined, null, 0n]) assert.throws(() => history.at(index), TypeError);
  for (const index of [0.5, NaN]) assert.throws(() => history.at(index), RangeError);
  for (const index of ["0", null, 0n]) {
    assert.throws(() => history.slice(index), TypeError);
    assert.throws(() => history.rows(0, index), TypeError);
  }
  assert.throws(() => history.slice(0, NaN), RangeError);
});

test("what is no row", () => {
  const parser = screenOf("a", 1, 2);
  for (const row of [1, 2 ** 40, Infinity]) assert.equal(parser.keptRow(row), undefined);
  for (const row of ["0", undefined, 0n]) assert.throws(() => parser.keptRow(row), TypeError);
  for (const row of [-1, 0.5, NaN]) assert.throws(() => parser.keptText(row), RangeError);
});
