// What a terminal sends for the mouse. mouse.d.ts describes the interface.

import { MouseProtocolEncoding, MouseProtocolMode } from "./vt100.js";

const NO_BUTTON = 3, MOTION = 32, WHEEL = 64, EXTRA_BUTTON = 128;
const SHIFT = 4, META = 8, CONTROL = 16;

// The bits of MouseEvent.buttons with the codes of the buttons, in the order in which xterm looks for a pressed one.
const PRESSED = [[1, 0], [4, 1], [2, 2], [8, EXTRA_BUTTON], [16, EXTRA_BUTTON + 1]];

// A byte stands for a position from 1 to 223, and two bytes of UTF-8 for one up to 2015.
const MAX_BYTE = 0xff, MAX_TWO_BYTES = 0x7ff;

const encoder = new TextEncoder();

/** Returns the code of the button that an event is about, without modifiers. */
function buttonCode({ type, button, buttons, deltaX, deltaY }) {
  switch (type) {
    case "wheel": return WHEEL + (deltaY === 0 ? 2 + Number(deltaX > 0) : Number(deltaY > 0));
    case "mousemove": return MOTION + (PRESSED.find(([bit]) => buttons & bit)?.[1] ?? NO_BUTTON);
    default: return button < 3 ? button : EXTRA_BUTTON + button - 3;
  }
}

/** Returns whether a program that has selected a mode gets an event. */
function isReported({ type, button, buttons }, mode) {
  switch (type) {
    case "mousedown": return mode >= MouseProtocolMode.PRESS_RELEASE || (mode === MouseProtocolMode.PRESS && button < 3);
    case "mouseup": case "wheel": return mode >= MouseProtocolMode.PRESS_RELEASE;
    case "mousemove": return mode >= (buttons === 0 ? MouseProtocolMode.ANY_MOTION : MouseProtocolMode.BUTTON_MOTION);
    default: return false;
  }
}

/** Returns the bytes of a report whose numbers are characters, or null if a position is too large. */
function characterReport(code, { row, col }, isUtf8) {
  const numbers = [32 + code, 33 + col, 33 + row];
  if (Math.max(...numbers) > (isUtf8 ? MAX_TWO_BYTES : MAX_BYTE)) return null;
  const text = `\x1b[M${String.fromCharCode(...numbers)}`;
  return isUtf8 ? encoder.encode(text) : Uint8Array.from(text, (character) => character.charCodeAt(0));
}

export function mouseBytes(event, cell, { mouseProtocolMode: mode, mouseProtocolEncoding: encoding }) {
  if (!isReported(event, mode)) return null;
  const { shiftKey, altKey, ctrlKey } = event, isRelease = event.type === "mouseup";
  const modifiers = mode === MouseProtocolMode.PRESS ? 0
    : SHIFT * Number(shiftKey) + META * Number(altKey) + CONTROL * Number(ctrlKey);
  const code = buttonCode(event) + modifiers;
  if (encoding === MouseProtocolEncoding.SGR) {
    return encoder.encode(`\x1b[<${code};${cell.col + 1};${cell.row + 1}${isRelease ? "m" : "M"}`);
  }
  return characterReport(isRelease ? NO_BUTTON + modifiers : code, cell, encoding === MouseProtocolEncoding.UTF8);
}
