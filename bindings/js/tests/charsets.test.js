// Tests of the translator of character sets.

import assert from "node:assert/strict";
import test from "node:test";

import { Cast } from "../view/cast.js";
import { CastPlayer } from "../view/cast_player.js";
import { vt100 } from "./module.js";

const { Charsets, Parser, Vt100Error } = vt100;

/** The characters of the bytes 0x5F to 0x7E in DEC Special Graphics (DEC's manual of the VT220). */
const DRAWN = " ◆▒␉␌␍␊°±␤␋┘┐┌└┼⎺⎻─⎼⎽├┤┴┬│≤≥π≠£·";

function translated(...chunks) {
  const charsets = new Charsets();
  const parts = chunks.map((chunk) => Buffer.from(charsets.translate(chunk)));
  charsets.free();
  return Buffer.concat(parts).toString();
}

test("each character of DEC Special Graphics is translated", () => {
  const bytes = Uint8Array.from({ length: 32 }, (_, k) => 0x5f + k);
  assert.equal(translated("\x1b(0", bytes), `\x1b(0${DRAWN}`);
  assert.equal(translated(bytes), Buffer.from(bytes).toString());
});

test("input may be split anywhere", () => {
  const given = Buffer.from("q\x1b)0q\x0eq\x0f\x1b*0\x1bNqq\x1b]0;q\x07\x1b7\x1b(0q\x1b8qé");
  const wanted = "q\x1b)0q\x0e─\x0f\x1b*0\x1bN─q\x1b]0;q\x07\x1b7\x1b(0─\x1b8qé";
  for (let at = 0; at <= given.length; at += 1) {
    assert.equal(translated(given.subarray(0, at), given.subarray(at)), wanted);
  }
});

test("input may be longer than the room for one call", () => {
  const long = "q".repeat(100_000);
  assert.equal(translated("\x1b(0", long, "q"), `\x1b(0${"─".repeat(100_001)}`);
  assert.equal(translated(`é${long}`), `é${long}`);
  assert.equal(translated(""), "");
});

test("a parser displays the translation", () => {
  const charsets = new Charsets(), parser = new Parser(2, 8);
  parser.process(charsets.translate("\x1b(0lqk\r\nmqj\x1b(Bmqj"));
  assert.equal(parser.contents(), "┌─┐\n└─┘mqj");
  parser.free();
  charsets.free();
});

test("wrong data and a freed translator throw", () => {
  const charsets = new Charsets();
  charsets.translate("\x1b(0");
  for (const wrong of [null, 7, {}, [0x71]]) assert.throws(() => charsets.translate(wrong), TypeError);
  assert.equal(Buffer.from(charsets.translate("q")).toString(), "─");
  charsets.free();
  assert.ok(charsets.isFreed);
  assert.throws(() => charsets.translate("q"), Vt100Error);
});

test("a player displays boxes, wherever it seeks to", () => {
  const events = [[1, "o", "\x1b"], [2, "o", "(0lqk\r\n"], [3, "o", "mqj\x1b(B"], [4, "o", "mqj"]];
  const lines = [{ version: 2, width: 8, height: 2 }, ...events].map((line) => JSON.stringify(line));
  const player = new CastPlayer(vt100, new Cast(lines.join("\n")), { keyframes: { interval: 1 } });
  for (const [time, text] of [[4, "┌─┐\n└─┘mqj"], [2, "┌─┐"], [3, "┌─┐\n└─┘"]]) {
    player.seek(time);
    assert.equal(player.parser.contents(), text);
  }
  player.free();
});
