// Reads the records of logged events, and invokes callbacks for them.

import { textOf, wordOf } from "./instance.js";

/** The callbacks, in the order of the kinds of events. */
const NAMES = [
  "audibleBell",
  "visualBell",
  "resize",
  "setWindowIconName",
  "setWindowTitle",
  "copyToClipboard",
  "pasteFromClipboard",
  "unhandledChar",
  "unhandledControl",
  "unhandledEscape",
  "unhandledCsi",
  "unhandledOsc",
  "onScroll",
];

// A record: its kind in 1 byte, two numbers in 4 bytes each, the length of its text in 8 bytes, and the text.
const NUMBERS = 1;
const LENGTH = 9;
const TEXT = 17;

/** What a record of an intermediate byte holds if there is none. */
const NO_BYTE = 256;

/** The properties that hold the text of the last event of a kind. */
const TITLES = { 3: "iconName", 4: "title" };

/** The bits of the events that set titles, of those that text and SGR sequences can cause, and of those for rows. */
export const TITLE_EVENTS = (1 << 3) | (1 << 4), TEXT_EVENTS = (1 << 7) | (1 << 10), ROW_EVENTS = 1 << 12;

/** The callback that is invoked for lost events, for which there is no record. */
const LOST = "eventsLost";

/** Returns the bits of the kinds of events for which there are callbacks, each of which must be a function. */
export function wantedBy(callbacks = {}) {
  if (typeof callbacks !== "object" || callbacks === null) throw new TypeError("callbacks must be an object");
  for (const name of [...NAMES, LOST]) {
    const type = typeof callbacks[name];
    if (type !== "function" && type !== "undefined") throw new TypeError(`the callback ${name} is not a function`);
  }
  // Objects may have members of their own, but a function that is never called is a misspelt callback.
  const misspelt = Object.keys(callbacks).find(
    (name) => typeof callbacks[name] === "function" && name !== LOST && !NAMES.includes(name),
  );
  if (misspelt !== undefined) throw new TypeError(`there is no callback ${misspelt}`);
  return NAMES.reduce((bits, name, kind) => (callbacks[name] === undefined ? bits : bits | (1 << kind)), 0);
}

/** The kind of the events for rows, which are reported together. */
const ON_SCROLL = NAMES.indexOf("onScroll");

/** The texts of the rows in a log, which are decoded when the first one is read. */
class RowTexts {
  #bytes;
  #all;

  constructor(bytes) {
    this.#bytes = bytes;
  }

  textOf(start, end) {
    this.#all ??= textOf(this.#bytes, 0, this.#bytes.length);
    // If the log is as long as text as it is in bytes, each byte is a unit of the text: no row has any but ASCII characters.
    if (this.#all.length === this.#bytes.length) return this.#all.slice(start, end);
    return textOf(this.#bytes, start, end - start);
  }
}

/** A row that scrolled off. */
class ScrolledRow {
  #texts;
  #start;
  #end;

  constructor(texts, start, end, wrapped, alternateScreen) {
    this.#texts = texts;
    this.#start = start;
    this.#end = end;
    this.wrapped = wrapped;
    this.alternateScreen = alternateScreen;
  }

  get text() {
    return this.#texts.textOf(this.#start, this.#end);
  }

  toJSON() {
    const { text, wrapped, alternateScreen } = this;
    return { text, wrapped, alternateScreen };
  }
}

/**
 * Returns the names and the arguments of the callbacks for the records of a log. The argument of onScroll is an array of
 * all rows: no callbacks are invoked for other events between them. Stores titles in `titles`.
 */
export function eventsIn(log, screen, titles) {
  const events = [], view = new DataView(log.buffer, log.byteOffset, log.length), texts = new RowTexts(log);
  let rows = null;
  for (let at = 0; at < log.length; ) {
    const kind = log[at], start = at + TEXT, end = start + wordOf(view, at + LENGTH);
    if (kind === ON_SCROLL) {
      if (rows === null) events.push(["onScroll", [(rows = [])]]);
      rows.push(new ScrolledRow(texts, start, end, log[at + NUMBERS + 4] === 1, log[at + NUMBERS] === 1));
    } else {
      const event = new Event(log, view, at, end), name = NAMES[kind];
      if (TITLES[kind] !== undefined) titles[TITLES[kind]] = event.text;
      events.push([name, READERS[name](event, screen)]);
    }
    at = end;
  }
  return events;
}

/** A record of an event, in the bytes from `at` up to but excluding `end`. */
class Event {
  constructor(bytes, view, at, end) {
    this.memory = bytes;
    this.view = view;
    this.start = at + TEXT;
    this.end = end;
    this.first = view.getUint32(at + NUMBERS, true);
    this.second = view.getUint32(at + NUMBERS + 4, true);
  }

  get bytes() {
    return this.memory.slice(this.start, this.end);
  }

  get text() {
    return textOf(this.memory, this.start, this.end - this.start);
  }

  /** Returns the two intermediate bytes of a sequence, with null for a missing one. */
  get intermediates() {
    return [this.first, this.second].map((byte) => (byte === NO_BYTE ? null : byte));
  }

  /** Returns the parts of the text, each of which follows its length. */
  get parts() {
    const parts = [];
    for (let at = this.start; at < this.end; ) {
      const start = at + 8;
      at = start + wordOf(this.view, at);
      parts.push(this.memory.slice(start, at));
    }
    return parts;
  }

  /** Returns the final character of a control sequence, with which the text begins. */
  get final() {
    return String.fromCodePoint(this.view.getUint32(this.start, true));
  }

  /** Returns the groups of numbers after the final character, each of which follows its count. */
  get groups() {
    const groups = [];
    for (let at = this.start + 4; at < this.end; ) {
      const start = at + 8;
      const count = wordOf(this.view, at);
      groups.push(Array.from({ length: count }, (_, k) => this.view.getUint16(start + 2 * k, true)));
      at = start + 2 * count;
    }
    return groups;
  }
}

/** The arguments of each callback but onScroll. */
const READERS = {
  audibleBell: (_, screen) => [screen],
  visualBell: (_, screen) => [screen],
  resize: (event, screen) => [screen, event.first, event.second],
  setWindowIconName: (event, screen) => [screen, event.bytes],
  setWindowTitle: (event, screen) => [screen, event.bytes],
  copyToClipboard: (event, screen) => [screen, ...event.parts],
  pasteFromClipboard: (event, screen) => [screen, event.bytes],
  unhandledChar: (event, screen) => [screen, String.fromCodePoint(event.first)],
  unhandledControl: (event, screen) => [screen, event.first],
  unhandledEscape: (event, screen) => [screen, ...event.intermediates, event.bytes[0]],
  unhandledCsi: (event, screen) => [screen, ...event.intermediates, event.groups, event.final],
  unhandledOsc: (event, screen) => [screen, event.parts],
};
