// Replays the recorded cases and scripts.

import assert from "node:assert/strict";
import { test } from "node:test";
import { vt100 } from "./module.js";
import { STATE, blocks, modes, notingParser, picture, plain, sizes, textLine, unhex } from "./recorded.js";

const { Parser, Screen } = vt100;

/** The number of recorded cases, as crates/test_cases/README.md states it. */
const COUNT = 1721;

const kindOf = (line) => line.split(" ", 1)[0];

/** Asserts that a state and the output of a screen are those that some lines specify. */
function assertLines(name, lines, state, screen, prev) {
  const told = lines.filter((line) => STATE.includes(kindOf(line)));
  assert.deepEqual(state.map(plain), told.map(plain), name);
  for (const line of lines) {
    if ([...STATE, "<", "prev", "unsteady"].includes(kindOf(line))) continue;
    assert.equal(textLine(screen, prev, line), line, name);
  }
}

function replayCase([name, rows, cols], lines) {
  const fields = Object.fromEntries(lines.filter((line) => /^[<p]/.test(line)).map((line) => line.split(" ", 2)));
  const data = unhex(fields["<"]);
  const before = Number(fields.prev ?? 0);
  const noted = [];
  const parser = notingParser(Number(rows), Number(cols), 0, noted);
  parser.process(data.subarray(0, before));
  const prev = parser.save();
  parser.process(data.subarray(before));
  assertLines(name, lines, [...picture(parser), ...modes(parser), ...noted], parser, prev);
  const quiet = new Parser(Number(rows), Number(cols));
  quiet.process(data);
  assert.deepEqual(picture(quiet), picture(parser));
  for (const it of [parser, prev, quiet]) it.free();
}

const STEPS = {
  process: (parser, _, hex) => parser.process(unhex(hex)),
  clone(parser) {
    const copy = parser.save();
    parser.swap(copy);
    copy.free();
  },
  clear_events: (_, noted) => (noted.length = 0),
  screen_set_size: (parser, _, rows, cols) => Screen.prototype.setSize.call(parser, Number(rows), Number(cols)),
  set_size: (parser, _, rows, cols) => parser.setSize(Number(rows), Number(cols)),
  set_scrollback: (parser, _, rows) => parser.setScrollback(Number(rows)),
  clear_scrollback: (parser) => parser.clearScrollback(),
};

function replayScript([name, ...words], lines) {
  const noted = [];
  const parser = notingParser(...words.map(Number), noted);
  let prev = parser.save();
  const starts = lines.flatMap((line, at) => (line.startsWith("> ") ? [at] : []));
  starts.forEach((start, k) => {
    const [step, ...values] = lines[start].slice(2).split(" ");
    if (step !== "expect") return STEPS[step](parser, noted, ...values);
    const expected = lines.slice(start + 1, starts[k + 1]);
    const state = [...sizes(parser), ...picture(parser), ...modes(parser), ...noted];
    assertLines(`${name}, line ${start}`, expected, state, parser, prev);
    prev.free();
    prev = parser.save();
  });
  for (const it of [parser, prev]) it.free();
}

let seen = 0;
for (const [file, replay] of [["hand", replayCase], ["random", replayCase], ["scripts", replayScript]]) {
  test(`recorded cases: ${file}`, () => {
    for (const { head, lines } of blocks(file)) {
      replay(head, lines);
      seen++;
    }
  });
}

test("all recorded cases were replayed", (t) => {
  assert.equal(seen, COUNT);
  t.diagnostic(`${seen} cases`);
});
