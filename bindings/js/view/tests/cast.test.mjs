import assert from "node:assert/strict";
import { readFile } from "node:fs/promises";
import { test } from "node:test";
import { Cast } from "../cast.js";
import { escape, unescape } from "../escapes.js";

const SECOND = '{"version": 2, "width": 80, "height": 24, "idle_time_limit": 1.5, "title": "t"}';
const THIRD = '{"version": 3, "term": {"cols": 80, "rows": 24, "theme": {"fg": "#111111", "bg": "#222222"}}}';

test("version 2: times are from the beginning", () => {
  const cast = new Cast(`${SECOND}\n[0.5, "o", "a"]\n[2, "r", "100x30"]\n\n[1, "o", "b"]\n`);
  assert.deepEqual([cast.version, cast.rows, cast.cols, cast.idleTimeLimit, cast.title], [2, 24, 80, 1.5, "t"]);
  assert.deepEqual(cast.events.map(({ time, kind, data }) => [time, kind, data]),
    [[0.5, "o", "a"], [2, "r", "100x30"], [2, "o", "b"]]);
  assert.deepEqual([cast.events[1].rows, cast.events[1].cols], [30, 100]);
});

test("version 3: times are from the event before, and there are comments", () => {
  const cast = new Cast(`${THIRD}\n# a comment\n[0.5, "o", "a"]\n[0.25, "m", "here"]\n[1, "x", "0"]`);
  assert.deepEqual(cast.events.map(({ time, kind }) => [time, kind]), [[0.5, "o"], [0.75, "m"], [1.75, "x"]]);
  assert.deepEqual([cast.rows, cast.cols, cast.theme.bg], [24, 80, "#222222"]);
});

test("version 1: a single value, with times from the output before", () => {
  const text = `\ufeff{
    "version": 1, "width": 80, "height": 24, "duration": 1.5, "title": "t",
    "stdout": [[0.5, "a"], [1, "\\u001b[mb"]]
  }\n`;
  for (const form of [text, text.replace(/\n */g, " ")]) {
    const cast = new Cast(form);
    assert.deepEqual([cast.version, cast.rows, cast.cols, cast.title, cast.theme], [1, 24, 80, "t", null]);
    assert.deepEqual(cast.events, [{ time: 0.5, kind: "o", data: "a" }, { time: 1.5, kind: "o", data: "\x1b[mb" }]);
    assert.equal(cast.isCutOff, false);
  }
});

test("a last line that is cut off is ignored", () => {
  const cut = new Cast(`${SECOND}\n[0.5, "o", "a"]\n[1, "o", "b`);
  assert.deepEqual([cut.events.map(({ data }) => data), cut.isCutOff], [["a"], true]);
  assert.equal(new Cast(`${SECOND}\n[0.5, "o", "a"]`).isCutOff, false);
  assert.equal(new Cast(SECOND).isCutOff, false);
  // A damaged line that is whole, or not the last one, is not.
  for (const text of [`${SECOND}\n[1, "o", "b\n`, `${SECOND}\n[1, "o", "b\n[2, "o", "c"]`]) {
    assert.throws(() => new Cast(text), /^SyntaxError: line 2: not JSON/);
  }
});

test("a limit of pauses that is no limit is ignored", () => {
  for (const limit of ["-1", "null", '"x"']) {
    assert.equal(new Cast(`{"version": 2, "width": 80, "height": 24, "idle_time_limit": ${limit}}`).idleTimeLimit, Infinity);
  }
});

test("what is not a string is refused", () => {
  for (const value of [undefined, null, 1, {}]) assert.throws(() => new Cast(value), TypeError);
});

test("long pauses are shortened", () => {
  const cast = new Cast(`${SECOND}\n[5, "o", "a"]\n[5.5, "o", "b"]\n[100, "o", "c"]`);
  assert.deepEqual(cast.withIdleTimeLimit(2).map(({ time }) => time), [2, 2.5, 4.5]);
  assert.deepEqual(cast.withIdleTimeLimit(Infinity).map(({ time }) => time), [5, 5.5, 100]);
  assert.deepEqual(cast.withIdleTimeLimit(0).map(({ time }) => time), [0, 0, 0]);
});

test("damaged recordings are refused, with the line", () => {
  const faults = [
    ["", /^line 1: no header/],
    ['{"version": 1, "stdout": []}', /^line 1: no such size/],
    ['{"version": 1, "width": 80, "height": 24}', /^line 1: a recording of version 1 has a list/],
    ['{"version": 1, "width": 80, "height": 24, "stdout": [[0, "a"], 1]}', /^line 1: output 2 is not a list/],
    ['{"version": 4, "width": 80, "height": 24}', /^line 1: not the header/],
    ['{"version": 2, "width": 3000, "height": 10}', /^line 1: a terminal of 3000 columns and 10 rows is too large/],
    ['{"version": 2, "width": 10, "height": 2001}', /^line 1: a terminal of 10 columns and 2001 rows is too large/],
    ['{"version": 2, "width": 1000, "height": 251}', /too large: at most 2000 of each and 250000 cells/],
    ["[]", /^line 1: not the header/],
    ['{"version": 2, "width": 0, "height": 24}', /^line 1: no such size/],
    ['{"version": 3}', /^line 1: no such size/],
    [`${SECOND}\n[1, "o"\n`, /^line 2: not JSON/],
    [`${SECOND}\n\n[1, "o"]`, /^line 3: an event has three parts/],
    [`${SECOND}\n["1", "o", "a"]`, /^line 2: the time/],
    [`${SECOND}\n[-1, "o", "a"]`, /^line 2: the time/],
    [`${SECOND}\n[1, "o", 2]`, /^line 2: not a string/],
    [`${SECOND}\n[1, "r", "80"]`, /^line 2: no such size/],
    [`${SECOND}\n[1, "r", "80x70000"]`, /^line 2: a terminal of 80 columns and 70000 rows is too large/],
    [`${SECOND}\n[1, "r", "80x0"]`, /^line 2: no such size/],
  ];
  for (const [text, message] of faults) {
    assert.throws(() => new Cast(text), (error) => error instanceof SyntaxError && message.test(error.message), text);
  }
});

test("the recording of example_cast", async () => {
  const cast = new Cast(await readFile(new URL("../../../../crates/example_cast/stdin", import.meta.url), "utf8"));
  // The counts are those of the lines with "o", "r" and other kinds.
  const count = (kind) => cast.events.filter((event) => event.kind === kind).length;
  assert.deepEqual([cast.rows, cast.cols, cast.events.length, count("o"), count("r")], [30, 100, 82, 79, 1]);
});

test("escapes of the playground", () => {
  assert.equal(unescape("\\e[1m\\x41\\u0042\\u{1f600}\\r\\n\\t\\a\\\\e\\0\n"), "\x1b[1mAB\u{1f600}\r\n\t\x07\\e\0");
  assert.equal(escape("\x1b[mé\\\r\n\x85\u200b"), "\\e[mé\\\\\\r\\n\\u{85}\\u{200b}");
  for (const wrong of ["\\q", "\\x1", "\\u{110000}"]) assert.throws(() => unescape(wrong), SyntaxError);
  const all = Array.from({ length: 0x300 }, (_, code) => String.fromCharCode(code)).join("");
  assert.equal(unescape(escape(all)), all);
});
