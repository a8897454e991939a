// What process accepts: strings and bytes, in any chunks.

import assert from "node:assert/strict";
import { test } from "node:test";
import { runInNewContext } from "node:vm";
import { screenOf, vt100 } from "./module.js";

const { Parser } = vt100;

test("a byte order mark is a character", () => {
  assert.equal(screenOf("a\ufeff").contents(), "a\ufeff");
  const screen = screenOf("\x1b[Ha\ufeff");
  assert.equal(screen.cell(0, 0).text, "a\ufeff");
});

test("surrogate pairs are not cut in long strings", () => {
  for (const start of ["", "a", "ab", "abc"]) {
    const parser = new Parser(1, 2);
    const chars = new Set();
    const heard = new Parser(1, 1, { callbacks: { unhandledChar: (_, char) => chars.add(char) } });
    for (const it of [parser, heard]) it.process(start + "\u{1f600}".repeat(70000));
    assert.equal(parser.contents(), "\u{1f600}");
    assert.equal(chars.size, 0);
  }
});

test("a lone surrogate becomes U+FFFD", () => {
  const chars = [];
  const parser = new Parser(1, 9, { callbacks: { unhandledChar: (_, char) => chars.push(char) } });
  parser.process("a\ud83d");
  parser.process("\ude00b");
  assert.deepEqual([parser.contents(), chars], ["ab", ["\ufffd", "\ufffd"]]);
});

test("bytes may be split anywhere", () => {
  const bytes = new TextEncoder().encode("\x1b[31m\u{1f600}\x1b]2;title\x07e\u0301");
  const whole = screenOf(bytes);
  const split = screenOf("");
  for (const byte of bytes) split.process(Uint8Array.of(byte));
  assert.deepEqual(split.cells(0), whole.cells(0));
});

test("any view of bytes is accepted", () => {
  const bytes = new TextEncoder().encode("..ABCD..");
  const views = [new DataView(bytes.buffer, 2, 4), new Uint16Array(bytes.buffer, 2, 2), Buffer.from("ABCD")];
  for (const data of [...views, bytes.buffer]) assert.match(screenOf(data).contents(), /ABCD/);
  const shared = new Uint8Array(new SharedArrayBuffer(4));
  shared.set(bytes.subarray(2, 6));
  assert.equal(screenOf(shared).contents(), "ABCD");
  assert.equal(screenOf(new Uint8Array()).contents(), "");
});

test("a buffer of another realm is accepted", () => {
  assert.equal(screenOf(runInNewContext("new Uint8Array([65, 66]).buffer")).contents(), "AB");
});

test("long input is read in chunks", () => {
  const line = "0123456789abcdef\r\n";
  const text = line.repeat(20000);
  const bytes = new TextEncoder().encode(text);
  let scrolled = 0;
  const parsers = [new Parser(3, 20), new Parser(3, 20, { callbacks: { onScroll: (rows) => (scrolled += rows.length) } })];
  for (const data of [text, bytes]) {
    for (const parser of parsers) {
      parser.process("\x1bc");
      parser.process(data);
      assert.equal(parser.contents(), "0123456789abcdef\n0123456789abcdef");
    }
  }
  assert.equal(scrolled, 2 * (20000 - 2));
});

test("an unfinished command is counted, and can be ended", () => {
  const parser = screenOf("\x1b]2;title");
  assert.equal(parser.pendingLen, 7);
  parser.process("\x18");
  assert.equal(parser.pendingLen, 0);
});
