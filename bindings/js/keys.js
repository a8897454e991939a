// What a terminal sends for keys and for pasted text. keys.d.ts describes the interface.

/** Whether this is a Mac, whose key Option selects characters. */
const ON_MAC = /^(?:Mac|iP)/.test(globalThis.navigator?.platform ?? "");

const CURSOR_KEYS = { ArrowUp: "A", ArrowDown: "B", ArrowRight: "C", ArrowLeft: "D", Begin: "E", Home: "H", End: "F" };
const FUNCTION_KEYS = { F1: "P", F2: "Q", F3: "R", F4: "S" };
const NUMBERED_KEYS = {
  Insert: 2, Delete: 3, PageUp: 5, PageDown: 6, F5: 15, F6: 17, F7: 18, F8: 19, F9: 20, F10: 21, F11: 23, F12: 24,
};

/** What the keys of the numeric keypad send after ESC O in application mode (DECKPAM), by their places, as on a VT220. */
const KEYPAD = {
  Numpad0: "p", Numpad1: "q", Numpad2: "r", Numpad3: "s", Numpad4: "t", Numpad5: "u", Numpad6: "v", Numpad7: "w",
  Numpad8: "x", Numpad9: "y", NumpadMultiply: "j", NumpadAdd: "k", NumpadComma: "l", NumpadSubtract: "m",
  NumpadDecimal: "n", NumpadDivide: "o", NumpadEnter: "M", NumpadEqual: "X",
};

/**
 * Returns the text of a key of the keypad in application mode, or null if it sends what it does in numeric mode. As in
 * xterm, NumLock and modifiers turn application mode off, so that digits can be typed on keyboards that have NumLock.
 */
function keypadSequenceOf(event, modifiers, applicationKeypad) {
  const isApplication = applicationKeypad && modifiers === 1 && Object.hasOwn(KEYPAD, event.code ?? "");
  return isApplication && !event.getModifierState?.("NumLock") ? `\x1bO${KEYPAD[event.code]}` : null;
}

/** Returns the text of a key that sends an escape sequence, or null if it is not such a key. */
function sequenceOf(key, modifiers, applicationCursor) {
  if (Object.hasOwn(NUMBERED_KEYS, key)) {
    return modifiers > 1 ? `\x1b[${NUMBERED_KEYS[key]};${modifiers}~` : `\x1b[${NUMBERED_KEYS[key]}~`;
  }
  const isCursorKey = Object.hasOwn(CURSOR_KEYS, key);
  if (!isCursorKey && !Object.hasOwn(FUNCTION_KEYS, key)) return null;
  const final = isCursorKey ? CURSOR_KEYS[key] : FUNCTION_KEYS[key];
  if (modifiers > 1) return `\x1b[1;${modifiers}${final}`;
  return (isCursorKey && !applicationCursor ? "\x1b[" : "\x1bO") + final;
}

/** Returns the text of a key that sends a control character, or null if it is not such a key. */
function controlOf(key, shiftKey, ctrlKey) {
  switch (key) {
    case "Enter": return "\r";
    case "Escape": return "\x1b";
    case "Backspace": return ctrlKey ? "\b" : "\x7f";
    case "Tab": return shiftKey ? "\x1b[Z" : "\t";
    default: return null;
  }
}

/** What Ctrl sends with the keys that are neither letters nor between @ and _ in ASCII, as in xterm. */
const CONTROLS = {
  " ": "\0", "2": "\0", "3": "\x1b", "4": "\x1c", "5": "\x1d", "6": "\x1e", "7": "\x1f", "8": "\x7f", "/": "\x1f", "?": "\x7f",
};

/** The characters of keys on a US keyboard, for keys that are not named after their character. */
const OF_CODE = { Space: " ", Slash: "/", BracketLeft: "[", BracketRight: "]", Backslash: "\\" };

function isCharacter(key) {
  return [...key].length === 1;
}

function isAscii(key) {
  return isCharacter(key) && key <= "\x7f";
}

/** Returns the character that a key has on a US keyboard, or null if it has none that Ctrl is used with. */
function characterOfCode(code) {
  return /^(?:Key([A-Z])|Digit([0-9]))$/.exec(code)?.slice(1).join("") ?? OF_CODE[code] ?? null;
}

/** Returns what Ctrl sends with a character, or with the key at its place if the keyboard's characters are not ASCII. */
function controlCharacterOf(key, code) {
  const character = isAscii(key) ? key.toUpperCase() : characterOfCode(code);
  if (character === null) return null;
  if (Object.hasOwn(CONTROLS, character)) return CONTROLS[character];
  return character >= "@" && character <= "_" ? String.fromCharCode(character.charCodeAt(0) & 0x1f) : null;
}

/** Returns whether a key with modifiers has selected a character of its own, so that Alt is not meant. */
function isSelection({ key, code, ctrlKey, altKey }, isMac) {
  if (!altKey || !isCharacter(key)) return false;
  // Some systems report AltGr as Ctrl and Alt.
  if (ctrlKey) return !/^[a-z ]$/i.test(key);
  return isMac && key.toUpperCase() !== characterOfCode(code);
}

export function keyText(event, { applicationCursor, applicationKeypad = false }, { isMac = ON_MAC } = {}) {
  const { key, code = "", ctrlKey, altKey, shiftKey, metaKey, isComposing } = event;
  if (metaKey || isComposing) return null;
  const modifiers = 1 + Number(shiftKey) + 2 * Number(altKey) + 4 * Number(ctrlKey);
  // Without NumLock, browsers name the key in the middle of the keypad Clear, like another key of a Mac.
  const name = key === "Clear" && code === "Numpad5" ? "Begin" : key;
  const sequence = keypadSequenceOf(event, modifiers, applicationKeypad) ?? sequenceOf(name, modifiers, applicationCursor);
  if (sequence !== null) return sequence;
  if (isSelection({ key, code, ctrlKey, altKey }, isMac)) return key;
  const character = ctrlKey ? controlCharacterOf(key, code) : key;
  const text = controlOf(key, shiftKey, ctrlKey) ?? (isCharacter(key) ? character : null);
  return text === null ? null : (altKey ? "\x1b" : "") + text;
}

/** The controls that pasted text loses: all but TAB, LF and CR. Python's `vt100.testing` removes the same ones. */
const UNPASTED = /[\x00-\x08\x0b\x0c\x0e-\x1f\x7f-\x9f]/g;

export function pasteText(text, { bracketedPaste }) {
  // ESC could end the brackets. A control such as ^C interrupts a program, which then reads the rest as typed.
  const typed = text.replace(UNPASTED, "").replace(/\r\n|\n/g, "\r");
  return bracketedPaste ? `\x1b[200~${typed}\x1b[201~` : typed;
}
