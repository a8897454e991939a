// What the mouse sends: the expected reports are those of xterm's control sequences, "Mouse Tracking".

import assert from "node:assert/strict";
import { test } from "node:test";
import { MouseProtocolEncoding, MouseProtocolMode } from "../vt100.js";
import { mouseBytes } from "../mouse.js";

const { NONE, PRESS, PRESS_RELEASE, BUTTON_MOTION, ANY_MOTION } = MouseProtocolMode;
const { DEFAULT, UTF8, SGR } = MouseProtocolEncoding;
const LEFT = 0, MIDDLE = 1, RIGHT = 2, BACK = 3, FORWARD = 4;

/** Returns what an event sends, as a string of bytes, or null. Modifiers are S for Shift, A for Alt and C for Ctrl. */
function sent(mode, encoding, type, { modifiers = "", row = 0, col = 0, ...event } = {}) {
  const has = (letter) => modifiers.includes(letter);
  const keys = { shiftKey: has("S"), altKey: has("A"), ctrlKey: has("C") };
  const state = { mouseProtocolMode: mode, mouseProtocolEncoding: encoding };
  const bytes = mouseBytes({ type, button: LEFT, buttons: 0, ...keys, ...event }, { row, col }, state);
  return bytes === null ? null : Buffer.from(bytes).toString("latin1");
}

const press = (button, more) => sent(PRESS_RELEASE, DEFAULT, "mousedown", { button, ...more });
const release = (button, more) => sent(PRESS_RELEASE, DEFAULT, "mouseup", { button, ...more });

test("a press has the code of its button and the position, which begins at 1", () => {
  assert.deepEqual([LEFT, MIDDLE, RIGHT].map((button) => press(button)), ["\x1b[M !!", "\x1b[M!!!", "\x1b[M\"!!"]);
  assert.equal(press(LEFT, { col: 9, row: 4 }), "\x1b[M *%");
  assert.deepEqual([BACK, FORWARD].map((button) => press(button)), ["\x1b[M\xa0!!", "\x1b[M\xa1!!"]);
});

test("a release has the code 3, whichever button it was", () => {
  for (const button of [LEFT, MIDDLE, RIGHT, BACK]) assert.equal(release(button), "\x1b[M#!!");
});

test("modifiers are added to the code: 4 for Shift, 8 for Meta, 16 for Control", () => {
  const expected = { S: "$", A: "(", C: "0", SAC: "<" };
  for (const [modifiers, code] of Object.entries(expected)) assert.equal(press(LEFT, { modifiers }), `\x1b[M${code}!!`);
  assert.equal(release(LEFT, { modifiers: "C" }), "\x1b[M3!!");
});

test("the wheel has the codes of buttons 4 to 7", () => {
  const wheel = (deltaX, deltaY) => sent(PRESS_RELEASE, DEFAULT, "wheel", { deltaX, deltaY });
  assert.deepEqual([wheel(0, -1), wheel(0, 1), wheel(-1, 0), wheel(1, 0)], ["\x1b[M`!!", "\x1b[Ma!!", "\x1b[Mb!!", "\x1b[Mc!!"]);
});

test("a motion adds 32 to the code of the first pressed button, or to 3", () => {
  const move = (buttons, more) => sent(ANY_MOTION, DEFAULT, "mousemove", { buttons, ...more });
  assert.deepEqual([1, 4, 2, 0].map((buttons) => move(buttons)), ["\x1b[M@!!", "\x1b[MA!!", "\x1b[MB!!", "\x1b[MC!!"]);
  assert.deepEqual([move(1 + 2), move(2 + 4)], ["\x1b[M@!!", "\x1b[MA!!"]);
  assert.equal(move(0, { modifiers: "S" }), "\x1b[MG!!");
});

test("each mode has its events", () => {
  const events = [["mousedown", {}], ["mouseup", {}], ["wheel", { deltaY: 1 }], ["mousemove", { buttons: 1 }], ["mousemove", {}]];
  const counts = new Map([[NONE, 0], [PRESS, 1], [PRESS_RELEASE, 3], [BUTTON_MOTION, 4], [ANY_MOTION, 5]]);
  for (const encoding of [DEFAULT, UTF8, SGR]) {
    for (const [mode, count] of counts) {
      events.forEach(([type, event], k) => assert.equal(sent(mode, encoding, type, event) !== null, k < count, `${mode} ${type}`));
      assert.equal(sent(mode, encoding, "click"), null);
    }
  }
});

test("the mode of X10 has three buttons, and no modifiers", () => {
  assert.equal(sent(PRESS, DEFAULT, "mousedown", { button: RIGHT, modifiers: "SAC", col: 1 }), "\x1b[M\"\"!");
  assert.equal(sent(PRESS, DEFAULT, "mousedown", { button: BACK }), null);
});

test("in the default encoding, positions end at 223", () => {
  assert.equal(press(LEFT, { col: 222, row: 94 }), "\x1b[M \xff\x7f");
  assert.equal(press(LEFT, { col: 222, row: 95 }), "\x1b[M \xff\x80");
  assert.equal(press(LEFT, { col: 223 }), null);
  assert.equal(press(LEFT, { row: 223 }), null);
});

test("in UTF-8, positions end at 2015, and codes are characters, too", () => {
  const utf8 = (event) => sent(PRESS_RELEASE, UTF8, "mousedown", event);
  assert.equal(utf8({ col: 94, row: 95 }), "\x1b[M \x7f\xc2\x80");
  assert.equal(utf8({ col: 223 }), "\x1b[M \xc4\x80!");
  assert.equal(utf8({ row: 2014 }), "\x1b[M !\xdf\xbf");
  assert.equal(utf8({ row: 2015 }), null);
  assert.equal(utf8({ button: BACK }), "\x1b[M\xc2\xa0!!");
});

test("SGR reports are decimal, have no limit, and name the released button", () => {
  const sgr = (type, event) => sent(ANY_MOTION, SGR, type, event);
  assert.equal(sgr("mousedown", { button: MIDDLE, col: 9999, row: 23 }), "\x1b[<1;10000;24M");
  assert.equal(sgr("mouseup", { button: RIGHT, modifiers: "A" }), "\x1b[<10;1;1m");
  assert.equal(sgr("mouseup", { button: FORWARD }), "\x1b[<129;1;1m");
  assert.equal(sgr("wheel", { deltaY: -3, modifiers: "C" }), "\x1b[<80;1;1M");
  assert.equal(sgr("mousemove", { buttons: 2, col: 1 }), "\x1b[<34;2;1M");
  assert.equal(sgr("mousemove", { row: 1 }), "\x1b[<35;1;2M");
});
