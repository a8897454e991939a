// Screens: properties, cells, text, redraws, diffs and scrollback.

import assert from "node:assert/strict";
import { test } from "node:test";
import { screenOf, vt100 } from "./module.js";

const { Cell, CursorStyle, MouseProtocolEncoding, MouseProtocolMode, Parser, Repeat, Screen } = vt100;

const BLANK = {
  text: "",
  fgcolor: null,
  bgcolor: null,
  bold: false,
  dim: false,
  italic: false,
  underline: false,
  inverse: false,
  wide: false,
  wideContinuation: false,
};

/** Asserts that a cell is blank except for some properties. */
function assertCell(cell, properties) {
  assert.ok(cell instanceof Cell);
  assert.deepEqual({ ...cell }, { ...BLANK, ...properties });
}

test("a new screen", () => {
  const screen = new Parser();
  assert.deepEqual(screen.size, { rows: 24, cols: 80 });
  assert.deepEqual(screen.cursor, { row: 0, col: 0 });
  assert.equal(screen.cursorStyle, CursorStyle.DEFAULT);
  assert.equal(screen.mouseProtocolMode, MouseProtocolMode.NONE);
  assert.equal(screen.mouseProtocolEncoding, MouseProtocolEncoding.DEFAULT);
  assert.deepEqual([screen.scrollback, screen.scrollbackLen, screen.scrollbackCapacity], [0, 0, 0]);
  assert.deepEqual([screen.fgcolor, screen.bgcolor, screen.bold], [null, null, false]);
  assert.equal(screen.contents(), "");
  assert.equal(screen.pendingLen, 0);
});

test("modes are set and reset", () => {
  const modes = [
    ["hideCursor", "\x1b[?25l", "\x1b[?25h"],
    ["alternateScreen", "\x1b[?1049h", "\x1b[?1049l"],
    ["applicationKeypad", "\x1b=", "\x1b>"],
    ["applicationCursor", "\x1b[?1h", "\x1b[?1l"],
    ["bracketedPaste", "\x1b[?2004h", "\x1b[?2004l"],
  ];
  for (const [name, on, off] of modes) {
    const screen = screenOf(on);
    assert.equal(screen[name], true, name);
    screen.process(off);
    assert.equal(screen[name], false, name);
  }
});

test("mouse modes and cursor styles", () => {
  const modes = { 9: "PRESS", 1000: "PRESS_RELEASE", 1002: "BUTTON_MOTION", 1003: "ANY_MOTION" };
  for (const [number, name] of Object.entries(modes)) {
    assert.equal(screenOf(`\x1b[?${number}h`).mouseProtocolMode, MouseProtocolMode[name]);
  }
  for (const [number, name] of Object.entries({ 1005: "UTF8", 1006: "SGR" })) {
    assert.equal(screenOf(`\x1b[?${number}h`).mouseProtocolEncoding, MouseProtocolEncoding[name]);
  }
  // xterm's control sequences document, DECSCUSR
  const names = [
    "DEFAULT", "BLINK_BLOCK", "STEADY_BLOCK", "BLINK_UNDERLINE", "STEADY_UNDERLINE", "BLINK_VERTICAL_BAR",
    "STEADY_VERTICAL_BAR",
  ];
  names.forEach((name, style) => assert.equal(screenOf(`\x1b[${style} q`).cursorStyle, CursorStyle[name]));
  for (const [text, row, col] of [["ab\r\ncd", 1, 2], ["\x1b[3;4H", 2, 3], ["x".repeat(10), 0, 10]]) {
    const { cursorRow, cursorCol, rows, cols } = screenOf(text).state;
    assert.deepEqual([cursorRow, cursorCol, rows, cols], [row, col, 3, 10]);
  }
});

test("attributes of the next character", () => {
  for (const [number, name] of Object.entries({ 1: "bold", 2: "dim", 3: "italic", 4: "underline", 7: "inverse" })) {
    const screen = screenOf(`\x1b[${number}m`);
    assert.equal(screen[name], true, name);
    assert.equal(screen.state[name], true, name);
  }
  const screen = screenOf("\x1b[31;48;2;1;2;3m");
  assert.deepEqual([screen.fgcolor, screen.bgcolor], [1, [1, 2, 3]]);
});

test("cells", () => {
  const screen = screenOf("\u5b57\x1b[38;2;1;2;3me\u0301\x1b[m\x1b[1;3;7;35;46ma\x1b[2;4;23mb", 1, 10);
  assertCell(screen.cell(0, 0), { text: "\u5b57", wide: true });
  assertCell(screen.cell(0, 1), { wideContinuation: true });
  assertCell(screen.cell(0, 2), { text: "e\u0301", fgcolor: [1, 2, 3] });
  assertCell(screen.cell(0, 3), { text: "a", fgcolor: 5, bgcolor: 6, bold: true, italic: true, inverse: true });
  assertCell(screen.cell(0, 4), { text: "b", fgcolor: 5, bgcolor: 6, dim: true, underline: true, inverse: true });
  assertCell(screen.cell(0, 5), {});
  const cells = screen.cells(0);
  assert.equal(cells.length, 10);
  cells.forEach((cell, col) => assert.deepEqual(cell, screen.cell(0, col)));
  const records = screen.rowBytes(0);
  assert.equal(records.length, 400);
  assert.deepEqual(new Cell(records, 80), screen.cell(0, 2));
  const room = new Uint8Array(500);
  assert.equal(screen.rowBytes(0, room), room);
  assert.deepEqual(room.subarray(0, 400), records);
});

test("cells of all rows", () => {
  const screen = screenOf("\x1b[31ma\x1b[mb\u5b57\r\nc", 2, 5);
  const rows = screen.allCells();
  assert.deepEqual(rows.map((row) => row.map((cell) => cell.text)), [["a", "b", "\u5b57", "", ""], ["c", "", "", "", ""]]);
  assertCell(rows[0][0], { text: "a", fgcolor: 1 });
  assertCell(rows[0][3], { wideContinuation: true });
  const records = screen.allBytes();
  assert.equal(records.length, 400);
  assertCell(new Cell(records, 40 * 5), { text: "c" });
  const room = new Uint8Array(500).fill(99);
  assert.equal(screen.allBytes(room), room);
  assert.deepEqual(room.subarray(0, 400), records);
  assert.ok(room.subarray(400).every((byte) => byte === 99));
});

test("cells of all rows of a screen that needs more room than other calls", () => {
  const screen = screenOf("\x1b[50;200Hx", 50, 200);
  const rows = screen.allCells();
  assert.deepEqual([rows.length, rows[49].length], [50, 200]);
  assertCell(rows[49][199], { text: "x" });
  assertCell(rows[49][198], {});
});

test("changed rows", () => {
  const screen = screenOf("abc");
  assert.deepEqual([...screen.dirty().keys()], [0, 1, 2]);
  assert.equal(screen.dirty().size, 0);
  screen.process("\x1b[2;1Hx");
  const changed = screen.dirty();
  assert.deepEqual([...changed.keys()], [1]);
  assert.deepEqual(changed.get(1), screen.rowBytes(1));
  screen.process("\x1b[3;3H"); // The cursor is no cell.
  assert.equal(screen.dirty().size, 0);
  screen.setSize(2, 15);
  assert.deepEqual([...screen.dirty().keys()], [0, 1]);
});

test("all rows have changed after a resize, also one of the columns alone", () => {
  for (const [rows, cols] of [[3, 12], [3, 8], [4, 8], [3, 8]]) {
    const screen = screenOf("abc");
    screen.dirty();
    screen.setSize(rows, cols);
    const changed = screen.dirty();
    assert.deepEqual([...changed.keys()], Array.from({ length: rows }, (_, row) => row));
    for (const [row, records] of changed) assert.deepEqual(records, screen.rowBytes(row));
  }
});

test("rows are as wide as the screen", () => {
  const screen = screenOf("x".repeat(300), 2, 300);
  assert.deepEqual(screen.rows(), ["x".repeat(300), ""]);
  assert.deepEqual(screen.rows(290), ["x".repeat(10), ""]);
  assert.equal(screen.rowsFormatted()[0], "x".repeat(300));
  assert.equal(screen.rowsDiff(screenOf("", 2, 300))[0], "x".repeat(300));
});

test("text is found", () => {
  const screen = screenOf("one two\r\n\u5b57e\u0301 two, and a wrap", 4, 12);
  const place = (row, col) => ({ row, col });
  assert.deepEqual(screen.find("two"), [place(0, 4), place(1, 4)]);
  assert.deepEqual(screen.find("and a wrap"), [place(1, 9)]);
  assert.deepEqual(screen.find("wrap"), [place(2, 3)]);
  assert.deepEqual(screen.find("\u5b57"), [place(1, 0)]);
  assert.deepEqual(screen.find("e\u0301"), [place(1, 2)]);
  assert.deepEqual(screen.find("o\n"), [place(0, 6)]);
  assert.deepEqual(screen.find("\n"), [place(0, 7)]);
  assert.deepEqual(screen.find(/t.o/y), [place(0, 4), place(1, 4)]);
  assert.deepEqual(screen.find(/^\S+/m), [place(0, 0), place(1, 0)]);
  assert.deepEqual(screen.find(/TWO/i), [place(0, 4), place(1, 4)]);
  assert.deepEqual(screen.find(/x*/), []);
  assert.deepEqual(screen.find("a.w"), []);
  assert.throws(() => screen.find(""), RangeError);
  // A newline is after the last column of a full row, also of a wrapped one if the next row is empty, as in contents.
  assert.deepEqual(screenOf("abc\r\nd", 3, 3).find("\nd"), [place(0, 3)]);
  const wrapped = screenOf("abcd\x1b[2H\x1b[K\x1b[3Hx", 3, 3);
  assert.deepEqual([wrapped.rowWrapped(0), wrapped.contents()], [true, "abc\n\nx"]);
  assert.deepEqual(wrapped.find("c\n\nx"), [place(0, 2)]);
});

test("text of rows and ranges", () => {
  const screen = screenOf("abcdef\r\n\r\nuvwxyz");
  assert.deepEqual(screen.rows(), ["abcdef", "", "uvwxyz"]);
  assert.deepEqual(screen.rows(2, 3), ["cde", "", "wxy"]);
  assert.deepEqual(screen.rows(65535, 65535), ["", "", ""]);
  assert.equal(screen.contentsBetween(0, 4, 2, 2), "ef\n\nuv");
  const wrapped = screenOf("12345678901");
  assert.deepEqual([wrapped.rowWrapped(0), wrapped.rowWrapped(1)], [true, false]);
  assert.equal(wrapped.contents(), "12345678901");
});

test("rows are drawn one by one", () => {
  const screen = screenOf("a\x1b[31mb\x1b[m\r\n\x1b[7mcd");
  const target = new Parser(3, 10);
  const draw = (texts) => texts.forEach((text, row) => target.process(`\x1b[${row + 1}H\x1b[m${text}`));
  draw(screen.rowsFormatted());
  assert.deepEqual(target.cells(1), screen.cells(1));
  const prev = screen.save();
  screen.process("\x1b[m\x1b[Hx\x1b[2;5Hy");
  draw(screen.rowsDiff(prev));
  for (const row of [0, 1, 2]) assert.deepEqual(target.cells(row), screen.cells(row));
});

test("redraws and diffs keep a second terminal", () => {
  const first = new Parser(4, 12);
  const second = new Parser(4, 12);
  second.process(first.stateFormatted());
  const text = ["one\r\n\x1b[7mtwo\x1b[m\r\nthree", "\r\nfour\r\nfive"];
  for (const chunk of [...text, "\x1b[?25l\x1b[2;2H", "\x1b[?1h\x1b[4 q"]) {
    const before = first.shownCopy();
    first.process(chunk);
    second.process(first.contentsDiff(before) + first.inputModeDiff(before));
    assert.deepEqual(second.state, first.state);
    for (const row of [0, 1, 2, 3]) assert.deepEqual(second.cells(row), first.cells(row));
  }
});

test("a diff from the screen itself is empty", () => {
  const parser = screenOf("text\x1b[?1h");
  const diffs = ["contentsDiff", "contentsDiffScrolling", "contentsDiffWith", "stateDiff", "stateDiffWith", "inputModeDiff"];
  for (const name of diffs) assert.equal(parser[name](parser), "", name);
  assert.deepEqual(parser.rowsDiff(parser), ["", "", ""]);
});

test("rows move if that is shorter", () => {
  const parser = screenOf("aaaaaaaaa\r\nbbbbbbbbb\r\nccccccccc\r\nddddddddd", 4, 10);
  const before = parser.save();
  parser.process("\r\neeeeeeeee");
  assert.equal(parser.contentsDiffScrolling(before), "\x1b[H\x1b[M\n\n\neeeeeeeee");
  assert.equal(parser.contentsDiffWith(before, { scroll: true }), "\x1b[H\x1b[M\n\n\neeeeeeeee");
});

test("runs are repeated if the options allow it", () => {
  const parser = screenOf("", 2, 20);
  const before = parser.save();
  parser.process("----------\r\n────");
  const wanted = { NEVER: "----------\r\n────", ASCII: "-\x1b[9b\r\n────", ANY: "-\x1b[9b\r\n─\x1b[3b" };
  for (const [name, text] of Object.entries(wanted)) {
    assert.equal(parser.contentsDiffWith(before, { repeat: Repeat[name] }), text, name);
  }
});

test("portable output", () => {
  for (const [data, text, portable] of [
    ["\x1b[2ma\x1b[22;1mb", "\x1b[2ma\x1b[1mb", "\x1b[2ma\x1b[m\x1b[1mb"],
    [
      "abcd\r\nxxxxx\x1b[A",
      "abcd\r\nxxxxx\x1b[1;5H \x1b7\b\x1b[X\x1b8",
      "abcd\r\nxxxxx\x1b[1;5H \x1b7\x1b[1;5H\x1b[X\x1b8",
    ],
  ]) {
    const parser = screenOf("", 2, 5);
    const before = parser.save();
    parser.process(data);
    const clear = "\x1b[?25h\x1b[m\x1b[H\x1b[J";
    assert.equal(parser.contentsFormattedWith(), clear + text);
    assert.equal(parser.contentsFormattedWith({ portable: true }), clear + portable);
    assert.equal(parser.contentsDiffWith(before), text);
    assert.equal(parser.contentsDiffWith(before, { portable: true }), portable);
  }
});

test("states have options and modes", () => {
  const parser = screenOf("", 2, 20);
  const before = parser.save();
  parser.process("\x1b=\x1b[?2004h----------\r\n\x1b[2ma\x1b[22;1mb");
  const dimThenBold = "\x1b[2ma\x1b[m\x1b[1mb";
  const modes = "\x1b=\x1b[?2004h";
  assert.equal(parser.stateDiffWith(before), parser.stateDiff(before));
  assert.equal(parser.stateDiffWith(before, { portable: true }), `----------\r\n${dimThenBold}${modes}`);
  const options = { repeat: Repeat.ASCII, portable: true };
  assert.equal(parser.stateDiffWith(before, options), `-\x1b[9b\r\n${dimThenBold}${modes}`);
  const redraw = `\x1b[?25h\x1b[m\x1b[H\x1b[J----------\r\n${dimThenBold}\x1b=\x1b[?1l\x1b[?2004h`;
  assert.equal(parser.stateFormattedWith({ portable: true }), redraw);
  assert.equal(parser.stateFormattedWith(), parser.stateFormatted());
});

test("parts of a redraw", () => {
  const screen = screenOf("\x1b[1;31mab\x1b[2;3H\x1b[?25l\x1b[?1h");
  const target = screenOf("ab");
  target.process(screen.cursorStateFormatted() + screen.attributesFormatted() + screen.inputModeFormatted());
  assert.deepEqual(target.cursor, { row: 1, col: 2 });
  assert.deepEqual([target.hideCursor, target.bold, target.fgcolor, target.applicationCursor], [true, true, 1, true]);
  const region = screenOf("\x1b[2;3r\x1b[?6hrest");
  region.process(screen.contentsFormattedReset());
  assert.deepEqual(region.rows(), ["ab", "", ""]);
  const basic = screenOf(screen.contentsFormattedBasic().replaceAll("\n", "\r\n"));
  assertCell(basic.cell(0, 1), { text: "b", fgcolor: 1, bold: true });
});

test("scrollback", () => {
  const parser = screenOf("1\r\n2\r\n3\r\n4\r\n5", 2, 10, { scrollback: 5 });
  assert.deepEqual([parser.scrollbackLen, parser.scrollbackCapacity], [3, 5]);
  parser.setScrollback(2);
  assert.equal(parser.contents(), "2\n3");
  for (const all of [1e300, Infinity, Number.MAX_SAFE_INTEGER]) {
    parser.setScrollback(all);
    assert.deepEqual([parser.contents(), parser.scrollback], ["1\n2", 3]);
  }
  parser.clearScrollback();
  assert.deepEqual([parser.scrollbackLen, parser.contents()], [0, "4\n5"]);
});

test("saved screens", () => {
  const parser = screenOf("before");
  const saved = parser.save();
  parser.process(" xyz");
  parser.swap(saved);
  assert.deepEqual([parser.contents(), saved.contents()], ["before", "before xyz"]);
  parser.swap(parser);
  parser.process("!");
  assert.equal(parser.contents(), "before!");
  assert.ok(saved instanceof Screen && parser instanceof Screen && !(saved instanceof Parser));
  assert.equal(parser.screen, parser);
  const shown = screenOf("1\r\n2\r\n3", 2, 4, { scrollback: 5 }).shownCopy();
  assert.deepEqual([shown.contents(), shown.scrollbackLen], ["2\n3", 0]);
});

test("a screen is steady unless a glyph changes when it is printed again", () => {
  for (const [text, isSteady] of [["abc\u4e2d", true], ["a\u2764\ufe0fb", true], ["\u231a\ufe0e\ufe0f", false]]) {
    assert.equal(screenOf(text, 2, 8).isSteady(), isSteady, JSON.stringify(text));
  }
});
