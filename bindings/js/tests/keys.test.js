// What keys and pasted text send: the expected sequences are those of xterm, which the terminfo entries list.

import assert from "node:assert/strict";
import { test } from "node:test";
import { keyText, pasteText } from "../keys.js";

/** Returns an event of a key with modifiers: C for Ctrl, A for Alt, S for Shift and M for Meta. */
function eventOf(key, modifiers, code) {
  const has = (letter) => modifiers.includes(letter);
  return { key, code, ctrlKey: has("C"), altKey: has("A"), shiftKey: has("S"), metaKey: has("M"), isComposing: false };
}

/** Returns what a key sends with modifiers. */
function text(key, modifiers = "", applicationCursor = false, isComposing = false) {
  return keyText({ ...eventOf(key, modifiers), isComposing }, { applicationCursor });
}

/** Returns what a key at a place of the keyboard sends. */
function textAt(code, key, modifiers, isMac) {
  return keyText(eventOf(key, modifiers, code), { applicationCursor: false }, { isMac });
}

test("characters are sent as they are", () => {
  for (const key of ["a", "Z", " ", "é", "日", "😀"]) assert.equal(text(key), key);
  assert.equal(text("A", "S"), "A");
  assert.equal(text("x", "A"), "\x1bx");
});

test("Ctrl selects a control character, or nothing", () => {
  const expected = {
    a: "\x01", z: "\x1a", "[": "\x1b", "\\": "\x1c", "]": "\x1d", "^": "\x1e", "@": "\0", " ": "\0", "?": "\x7f", _: "\x1f",
    "/": "\x1f", 2: "\0", 3: "\x1b", 4: "\x1c", 5: "\x1d", 6: "\x1e", 7: "\x1f", 8: "\x7f",
  };
  for (const [key, sent] of Object.entries(expected)) assert.equal(text(key, "C"), sent, key);
  assert.equal(text("C", "CS"), "\x03");
  assert.equal(text("c", "CA"), "\x1b\x03");
  assert.equal(text(" ", "CA"), "\x1b\0");
  for (const key of ["é", "1", "9", "0", ".", "日", "ß", "`", "{", "~"]) assert.equal(text(key, "C"), null, key);
});

test("where a keyboard's characters are not ASCII, the place of a key selects the control character", () => {
  const expected = [
    ["KeyC", "с", "\x03"], ["KeyC", "С", "\x03"], ["KeyC", "ψ", "\x03"], ["KeyC", "ב", "\x03"], ["KeyC", "ؤ", "\x03"],
    ["BracketLeft", "х", "\x1b"], ["BracketRight", "ъ", "\x1d"], ["Backslash", "ё", "\x1c"], ["Digit7", "è", "\x1f"],
    ["Minus", "ß", null], ["Semicolon", "ж", null], ["Digit9", "ç", null], ["", "с", null],
  ];
  for (const [code, key, sent] of expected) assert.equal(textAt(code, key, "C"), sent, key);
  // The character decides if it is ASCII: this is a US keyboard's Q on a French one.
  assert.equal(textAt("KeyQ", "a", "C"), "\x01");
  assert.equal(textAt("KeyC", "с", ""), "с");
});

test("Option selects characters on a Mac, and Alt elsewhere means ESC", () => {
  const expected = [["KeyL", "@"], ["Digit7", "|"], ["Digit8", "{"], ["KeyX", "≈"], ["KeyE", "€"], ["Slash", "÷"]];
  for (const [code, key] of expected) {
    assert.equal(textAt(code, key, "A", true), key);
    assert.equal(textAt(code, key, "A", false), `\x1b${key}`);
  }
  // Some keyboards have no other character for a key.
  assert.equal(textAt("KeyX", "x", "A", true), "\x1bx");
  assert.equal(textAt("Digit1", "1", "A", true), "\x1b1");
  assert.equal(textAt("Enter", "Enter", "A", true), "\x1b\r");
  assert.equal(textAt("ArrowLeft", "ArrowLeft", "A", true), "\x1b[1;3D");
  assert.equal(textAt("KeyC", "c", "CA", true), "\x1b\x03");
});

test("a character that AltGr selects is sent", () => {
  for (const key of ["@", "{", "€"]) assert.equal(text(key, "CA"), key);
});

test("Enter, Tab, Escape and Backspace", () => {
  assert.deepEqual(["Enter", "Tab", "Escape", "Backspace"].map((key) => text(key)), ["\r", "\t", "\x1b", "\x7f"]);
  assert.equal(text("Tab", "S"), "\x1b[Z");
  assert.equal(text("Backspace", "C"), "\b");
  assert.equal(text("Enter", "A"), "\x1b\r");
});

test("cursor keys depend on the mode, and on modifiers", () => {
  const keys = ["ArrowUp", "ArrowDown", "ArrowRight", "ArrowLeft", "Home", "End"];
  assert.deepEqual(keys.map((key) => text(key)), ["\x1b[A", "\x1b[B", "\x1b[C", "\x1b[D", "\x1b[H", "\x1b[F"]);
  assert.deepEqual(keys.map((key) => text(key, "", true)), ["\x1bOA", "\x1bOB", "\x1bOC", "\x1bOD", "\x1bOH", "\x1bOF"]);
  assert.equal(text("ArrowUp", "C", true), "\x1b[1;5A");
  assert.equal(text("End", "SAC"), "\x1b[1;8F");
});

test("function keys and the keys of the editing block", () => {
  const expected = {
    F1: "\x1bOP", F2: "\x1bOQ", F3: "\x1bOR", F4: "\x1bOS", F5: "\x1b[15~", F6: "\x1b[17~", F7: "\x1b[18~", F8: "\x1b[19~",
    F9: "\x1b[20~", F10: "\x1b[21~", F11: "\x1b[23~", F12: "\x1b[24~", Insert: "\x1b[2~", Delete: "\x1b[3~",
    PageUp: "\x1b[5~", PageDown: "\x1b[6~",
  };
  for (const [key, sent] of Object.entries(expected)) assert.equal(text(key), sent);
  assert.equal(text("F1", "S"), "\x1b[1;2P");
  assert.equal(text("Delete", "C"), "\x1b[3;5~");
});

// xterm's control sequences document, "VT100-style keypad": the keys without NumLock, and what they send in both modes.
const KEYPAD = [
  ["Numpad0", "Insert", "\x1b[2~", "p"], ["Numpad1", "End", "\x1b[F", "q"], ["Numpad2", "ArrowDown", "\x1b[B", "r"],
  ["Numpad3", "PageDown", "\x1b[6~", "s"], ["Numpad4", "ArrowLeft", "\x1b[D", "t"], ["Numpad5", "Clear", "\x1b[E", "u"],
  ["Numpad6", "ArrowRight", "\x1b[C", "v"], ["Numpad7", "Home", "\x1b[H", "w"], ["Numpad8", "ArrowUp", "\x1b[A", "x"],
  ["Numpad9", "PageUp", "\x1b[5~", "y"], ["NumpadDecimal", "Delete", "\x1b[3~", "n"],
  ["NumpadMultiply", "*", "*", "j"], ["NumpadAdd", "+", "+", "k"], ["NumpadComma", ",", ",", "l"],
  ["NumpadSubtract", "-", "-", "m"], ["NumpadDivide", "/", "/", "o"], ["NumpadEnter", "Enter", "\r", "M"],
  ["NumpadEqual", "=", "=", "X"],
];

test("the keypad depends on its mode, on NumLock and on modifiers", () => {
  const state = (applicationKeypad) => ({ applicationCursor: false, applicationKeypad });
  const withNumLock = { getModifierState: (name) => name === "NumLock" };
  const withoutNumLock = { getModifierState: () => false };
  for (const [code, key, sent, final] of KEYPAD) {
    const event = eventOf(key, "", code);
    assert.equal(keyText(event, { applicationCursor: false }), sent, code);
    assert.equal(keyText(event, state(false)), sent, code);
    assert.equal(keyText(event, state(true)), `\x1bO${final}`, code);
    assert.equal(keyText({ ...event, ...withoutNumLock }, state(true)), `\x1bO${final}`, code);
    assert.equal(keyText({ ...event, ...withNumLock }, state(true)), sent, code);
  }
  for (let digit = 0; digit < 10; digit++) {
    const event = eventOf(`${digit}`, "", `Numpad${digit}`);
    assert.equal(keyText({ ...event, ...withNumLock }, state(true)), `${digit}`);
    // A Mac's keypad has digits without NumLock.
    assert.equal(keyText({ ...event, ...withoutNumLock }, state(true)), `\x1bO${"pqrstuvwxy"[digit]}`);
  }
  assert.equal(keyText(eventOf("Home", "C", "Numpad7"), state(true)), "\x1b[1;5H");
  assert.equal(keyText(eventOf("+", "A", "NumpadAdd"), state(true)), "\x1b+");
  // The same keys elsewhere, and a Mac's Clear.
  assert.equal(keyText(eventOf("Home", "", "Home"), state(true)), "\x1b[H");
  assert.equal(keyText(eventOf("0", "", "Digit0"), state(true)), "0");
  assert.equal(keyText(eventOf("Clear", "", "NumLock"), state(true)), null);
  assert.equal(keyText(eventOf("Clear", "", "Numpad5"), { applicationCursor: true }), "\x1bOE");
  assert.equal(keyText(eventOf("Clear", "S", "Numpad5"), state(true)), "\x1b[1;2E");
});

test("other keys send nothing", () => {
  for (const key of ["Shift", "Control", "Dead", "F13", "constructor", "MediaPlay"]) assert.equal(text(key), null);
  assert.equal(text("c", "M"), null);
  assert.equal(text("a", "", false, true), null);
});

test("pasted text has CR for newlines, and cannot end its brackets", () => {
  assert.equal(pasteText("a\r\nb\nc", { bracketedPaste: false }), "a\rb\rc");
  assert.equal(pasteText("a\nb", { bracketedPaste: true }), "\x1b[200~a\rb\x1b[201~");
  assert.equal(pasteText("a\x1b[201~rm\n", { bracketedPaste: true }), "\x1b[200~a[201~rm\r\x1b[201~");
});

test("pasted text has no controls but TAB and CR", () => {
  for (const bracketedPaste of [false, true]) {
    const paste = (code) => pasteText(`a${String.fromCodePoint(code)}b`, { bracketedPaste }).replace(/\x1b\[20[01]~/g, "");
    for (let code = 0; code < 0x20; code++) {
      assert.equal(paste(code), { 9: "a\tb", 10: "a\rb", 13: "a\rb" }[code] ?? "ab", `${code}`);
    }
    for (let code = 0x7f; code < 0xa0; code++) assert.equal(paste(code), "ab", `${code}`);
    for (const code of [0x20, 0x7e, 0xa0, 0xff, 0x65e5, 0x1f600]) assert.equal(paste(code), `a${String.fromCodePoint(code)}b`);
  }
});
