import assert from "node:assert/strict";
import { readFile } from "node:fs/promises";
import { afterEach, test } from "node:test";
import { Cast } from "../cast.js";
import { CastPlayer } from "../cast_player.js";

const TOKEN = /^(?:\x1b\[[0-?]*[ -/]*[@-~]|\x1b\][^\x07\x18\x1b]*\x07|\x1b[^[\]]|[^\x1b])/;

/**
 * A stand-in for a Parser that logs what it was told. Like a parser, it applies a sequence when it is complete, and it
 * keeps an unfinished one when its screen is swapped.
 */
class LogParser {
  #screen;
  #unfinished = "";
  isFreed = false;
  static alive = 0;
  /** The number of characters that all parsers have read. */
  static read = 0;

  constructor(rows, cols) {
    this.#screen = { log: [], rows, cols };
    LogParser.alive++;
  }

  /** What was applied, in order. */
  get log() {
    return this.#screen.log.join("");
  }

  get size() {
    return { rows: this.#screen.rows, cols: this.#screen.cols };
  }

  get isGround() {
    return this.#unfinished === "";
  }

  process(text) {
    LogParser.read += text.length;
    for (const char of text) {
      if (char === "\x18") this.#unfinished = "";
      else this.#unfinished += char;
      const [token] = this.#unfinished.match(TOKEN) ?? [];
      if (token === undefined) continue;
      this.#screen.log.push(token);
      this.#unfinished = "";
    }
  }

  setSize(rows, cols) {
    Object.assign(this.#screen, { rows, cols });
    this.#screen.log.push(`<${cols}x${rows}>`);
  }

  setScrollback() {}

  save() {
    const copy = new LogParser(0, 0);
    copy.#screen = { ...this.#screen, log: [...this.#screen.log] };
    return copy;
  }

  swap(other) {
    [this.#screen, other.#screen] = [other.#screen, this.#screen];
  }

  free() {
    if (!this.isFreed) LogParser.alive--;
    this.isFreed = true;
  }
}

const HEADER = '{"version": 2, "width": 80, "height": 24}';
const castOf = (...events) => new Cast([HEADER, ...events.map((event) => JSON.stringify(event))].join("\n"));
/** A stand-in for Charsets that translates one character, and counts its objects. */
class LineCharsets {
  static alive = 0;

  constructor() {
    LineCharsets.alive++;
  }

  translate(text) {
    return new TextEncoder().encode(text.replaceAll("¤", "─"));
  }

  free() {
    LineCharsets.alive--;
  }
}

const LIBRARY = { Parser: LogParser, Charsets: LineCharsets };

/** A clock that the test moves. */
class Clock {
  #now = 100;
  #callbacks = new Map();
  #next = 1;
  now = () => this.#now;
  request = (callback) => {
    this.#callbacks.set(this.#next, callback);
    return this.#next++;
  };
  cancel = (number) => this.#callbacks.delete(number);

  /** Lets time pass, and then invokes the callbacks. */
  pass(seconds) {
    this.#now += seconds;
    const callbacks = [...this.#callbacks.values()];
    this.#callbacks.clear();
    for (const callback of callbacks) callback();
  }
}

afterEach(() => {
  LogParser.alive = 0;
  LogParser.read = 0;
});

test("plays, pauses and ends", () => {
  const clock = new Clock(), cast = castOf([1, "o", "a"], [2, "o", "b"], [3, "o", "c"]);
  const player = new CastPlayer(LIBRARY, cast, { clock });
  const heard = [];
  for (const type of ["play", "pause", "ended", "screenchange"]) player.addEventListener(type, () => heard.push(type));
  assert.deepEqual([player.duration, player.paused, player.currentTime], [3, true, 0]);
  player.play();
  clock.pass(1.5);
  assert.deepEqual([player.parser.log, player.currentTime], ["a", 1.5]);
  player.pause();
  clock.pass(10);
  assert.deepEqual([player.parser.log, player.currentTime], ["a", 1.5]);
  player.play();
  clock.pass(5);
  assert.deepEqual([player.parser.log, player.ended, player.paused, player.currentTime], ["abc", true, true, 3]);
  assert.deepEqual(heard, ["play", "screenchange", "pause", "play", "screenchange", "pause", "ended"]);
  player.play();
  assert.deepEqual([player.parser.log, player.currentTime, player.ended], ["", 0, false]);
});

test("speed", () => {
  const clock = new Clock(), player = new CastPlayer(LIBRARY, castOf([10, "o", "a"], [20, "o", "b"]), { clock });
  player.playbackRate = 4;
  player.play();
  clock.pass(2);
  assert.equal(player.currentTime, 8);
  player.playbackRate = 1;
  clock.pass(1);
  assert.deepEqual([player.currentTime, player.parser.log], [9, ""]);
  clock.pass(1);
  assert.equal(player.parser.log, "a");
  for (const rate of [0, -1, NaN, Infinity]) assert.throws(() => (player.playbackRate = rate), RangeError);
  for (const rate of ["2", null, undefined]) assert.throws(() => (player.playbackRate = rate), TypeError);
  assert.equal(player.playbackRate, 1);
});

test("steps to the next and the last output", () => {
  const player = new CastPlayer(LIBRARY, castOf([1, "o", "a"], [2, "i", "x"], [3, "r", "10x5"], [3, "o", "b"], [4, "o", "c"]));
  const seen = [1, 1, 1, 1, -1, -1, -1].map((count) => {
    player.step(count);
    return [player.currentTime, player.parser.log];
  });
  const [none, a, b, c] = [[0, ""], [1, "a"], [3, "a<10x5>b"], [4, "a<10x5>bc"]];
  assert.deepEqual(seen, [a, b, c, c, b, a, none]);
  player.play();
  player.step(1);
  assert.ok(player.paused);
});

test("wrong recordings and options are refused", () => {
  const cast = castOf([1, "o", "a"]);
  const ofWrongTypes = [
    5, null, { speed: 2 }, { keyframes: { intervall: 5 } }, { playbackRate: "2" }, { idleTimeLimit: "2" },
    { keyframes: { interval: "5" } }, { keyframes: { limit: null } }, { keyframes: 5 },
  ];
  for (const options of ofWrongTypes) {
    assert.throws(() => new CastPlayer(LIBRARY, cast, options), TypeError, JSON.stringify(options));
  }
  const outOfRange = [
    { playbackRate: 0 }, { playbackRate: Infinity }, { keyframes: { interval: 0 } }, { keyframes: { limit: 0.5 } },
  ];
  for (const options of outOfRange) {
    assert.throws(() => new CastPlayer(LIBRARY, cast, options), RangeError, JSON.stringify(options));
  }
  const player = new CastPlayer(LIBRARY, cast);
  for (const count of [0, NaN]) assert.throws(() => player.step(count), RangeError);
  for (const count of ["1", undefined]) assert.throws(() => player.step(count), TypeError);
  for (const other of [{ rows: 1, cols: 1, events: [] }, "text", 5]) {
    assert.throws(() => new CastPlayer(LIBRARY, other), TypeError);
  }
});

test("idle limit and markers", () => {
  const cast = castOf([1, "o", "a"], [50, "m", "here"], [90, "o", "b"]);
  const player = new CastPlayer(LIBRARY, cast, { idleTimeLimit: 2 });
  assert.deepEqual([player.duration, player.markers], [5, [{ time: 3, label: "here" }]]);
  assert.throws(() => new CastPlayer(LIBRARY, cast, { idleTimeLimit: -1 }), RangeError);
  assert.throws(() => new CastPlayer(LIBRARY, cast, { idleTimeLimit: NaN }), RangeError);
});

/** Seeks to 500 times in a recording, and compares each screen with that after playing from the beginning. */
function compareSeeks(cast, keyframes) {
  const times = cast.events.map(({ time }) => time), player = new CastPlayer(LIBRARY, cast, { keyframes });
  let number = 1;
  for (let step = 0; step < 500; step++) {
    number = number * 48271 % 0x7fffffff;
    const time = times[number % times.length], expected = new LogParser(cast.rows, cast.cols);
    player.seek(time);
    for (const { kind, data, rows, cols } of cast.events.filter((event) => event.time <= time)) {
      if (kind === "o") expected.process(data);
      if (kind === "r") expected.setSize(rows, cols);
    }
    assert.deepEqual([player.parser.log, player.parser.size], [expected.log, expected.size], `step ${step}`);
  }
}

test("seeking ends with the screen that playing ends with", async () => {
  const cast = new Cast(await readFile(new URL("../../../../crates/example_cast/stdin", import.meta.url), "utf8"));
  compareSeeks(cast, { interval: 200, limit: 8 });
});

test("seeking in a recording whose events cut sequences anywhere", () => {
  const text = "\x1b[1;31mred\x1b]0;title\x07\x1b(B\x1b[2J\x1b7text\r\n".repeat(20);
  for (const length of [1, 2, 3, 7]) {
    const parts = text.match(new RegExp(`[^]{1,${length}}`, "g"));
    compareSeeks(castOf(...parts.map((part, k) => [k, "o", part])), { interval: 1, limit: 1000 });
  }
});

test("seeking reads only what is after the last saved screen", () => {
  const events = Array.from({ length: 10000 }, (_, k) => [k / 100, "o", `line ${k}\x1b[m\r\n`]);
  const player = new CastPlayer(LIBRARY, castOf(...events), { keyframes: { interval: 1000, limit: 32 } });
  player.seek(100);
  const whole = LogParser.read;
  for (const time of [99, 50, 3, 75.5, 98]) {
    LogParser.read = 0;
    player.seek(time);
    assert.ok(LogParser.read <= whole / 10, `${LogParser.read} of ${whole} characters read`);
  }
  const alive = LogParser.alive;
  assert.ok(alive <= 34, `${alive} screens`);
  player.free();
  assert.equal(LogParser.alive, 0);
});

test("fewer screens are saved when memory is short", () => {
  class ShortParser extends LogParser {
    save() {
      if (LogParser.alive > 5) throw Object.assign(new Error("out of memory"), { status: 1 });
      return super.save();
    }
  }
  const events = Array.from({ length: 100 }, (_, k) => [k, "o", "x"]);
  const player = new CastPlayer({ ...LIBRARY, Parser: ShortParser }, castOf(...events), { keyframes: { interval: 1, limit: 50 } });
  player.seek(99);
  player.seek(20);
  assert.equal(player.parser.log, "x".repeat(21));
  class BrokenParser extends LogParser {
    save() {
      throw new Error("broken");
    }
  }
  assert.throws(() => new CastPlayer({ ...LIBRARY, Parser: BrokenParser }, castOf(...events)), /broken/);
});

test("seeking limits the time, and refuses what is not a number", () => {
  const player = new CastPlayer(LIBRARY, castOf([1, "o", "a"], [2, "o", "b"]));
  player.seek(-5);
  assert.deepEqual([player.currentTime, player.parser.log], [0, ""]);
  player.currentTime = 1;
  assert.deepEqual([player.currentTime, player.parser.log], [1, "a"]);
  player.seek(50);
  assert.deepEqual([player.currentTime, player.parser.log, player.ended], [2, "ab", true]);
  assert.throws(() => player.seek("x"), TypeError);
  assert.deepEqual([new CastPlayer(LIBRARY, castOf()).duration, new CastPlayer(LIBRARY, castOf()).ended], [0, true]);
});

test("output is translated before the parser reads it, and nothing else is", () => {
  const player = new CastPlayer(LIBRARY, castOf([1, "o", "a¤"], [2, "m", "¤"], [3, "i", "¤"], [4, "o", "¤"]));
  player.seek(4);
  assert.equal(player.parser.log, "a──");
  assert.deepEqual(player.markers.map(({ label }) => label), ["¤"]);
  assert.equal(player.cast.events[0].data, "a¤");
  assert.equal(LineCharsets.alive, 0);
});
