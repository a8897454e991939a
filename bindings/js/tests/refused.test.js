// Allocations that fail, one after the other: each call then throws a Vt100Error with status 1 and changes nothing.

import assert from "node:assert/strict";
import { test } from "node:test";
import { Instance } from "../lib/instance.js";
import { Mirror } from "../lib/mirror.js";
import { Parser } from "../lib/parser.js";
import { hasStatus, moduleWithMaximum } from "./module.js";

const MAX_PAGES = 100;
const BLOCK_SIZES = [262144n, 16384n, 1024n, 128n, 16n];

/** The difference between two amounts of free memory that are tried. No allocation is smaller. */
const STEP = 16;

const { exports } = await WebAssembly.instantiate(await WebAssembly.compile(await moduleWithMaximum(MAX_PAGES)), {});
const instance = new Instance(exports);

/** Returns the result of `run` while the heap has about `count` free bytes, or the error that it throws. */
function withFreeBytes(count, run) {
  const { vt100_js_malloc: malloc, vt100_js_free: release } = exports;
  const reserve = count === 0 ? 0n : malloc(BigInt(count)), blocks = [];
  for (const size of BLOCK_SIZES) {
    for (let at = malloc(size); at !== 0n; at = malloc(size)) blocks.push(at);
  }
  release(reserve);
  instance.renew();
  try {
    return { result: run() };
  } catch (error) {
    return { error };
  } finally {
    for (const at of blocks) release(at);
  }
}

/**
 * Calls `run` with the object that `make` returns, with more and more free memory until the call succeeds. Each time
 * that it throws, `describe` must return what it returned before. Returns the number of calls that failed.
 */
function failures(make, run, describe) {
  for (let count = 0, failed = 0; ; count += STEP) {
    const object = make(), before = describe(object);
    const { result, error } = withFreeBytes(count, () => run(object));
    result?.free?.();
    if (error === undefined) {
      object.free();
      return failed;
    }
    assert.ok(hasStatus(1)(error), `${run}: ${error}`);
    assert.deepEqual(describe(object), before, run.toString());
    failed++;
    object.free();
  }
}

const TEXT = "\x1b[1mone\x1b[m two\r\n\u4e2d\u6587\r\nthree\r\nfour\r\nfive";

function parserOf(options = { scrollback: 5 }) {
  const parser = new Parser(instance, 4, 12, options);
  parser.process(TEXT);
  return parser;
}

const describeScreen = (screen) => [screen.state, screen.rows(), screen.stateFormatted()];

test("calls of a screen", () => {
  const prev = new Parser(instance, 4, 12);
  const calls = [
    (parser) => parser.setSize(7, 20),
    (parser) => parser.setSize(3, 5),
    (parser) => parser.save(),
    (parser) => parser.shownCopy(),
    (parser) => parser.contents(),
    (parser) => parser.contentsBetween(0, 0, 2, 3),
    (parser) => parser.rows(),
    (parser) => parser.contentsFormatted(),
    (parser) => parser.contentsFormattedBasic(),
    (parser) => parser.contentsFormattedWith({ portable: true }),
    (parser) => parser.stateFormatted(),
    (parser) => parser.rowsFormatted(),
    (parser) => parser.contentsDiff(prev),
    (parser) => parser.contentsDiffScrolling(prev),
    (parser) => parser.stateDiffWith(prev, { portable: true }),
    (parser) => parser.rowsDiff(prev),
    () => new Parser(instance, 4, 12),
    () => new Mirror(instance, 4, 12),
  ];
  for (const run of calls) assert.ok(failures(() => parserOf(), run, describeScreen) > 0, run.toString());
});

test("calls that need more room than other calls", () => {
  const parser = new Parser(instance, 20, 100);
  parser.process("text");
  for (const name of ["allBytes", "allCells"]) assert.ok(hasStatus(1)(withFreeBytes(0, () => parser[name]()).error), name);
  assert.equal(parser.allCells()[0][3].text, "t");
  parser.free();
});

test("calls of a mirror", () => {
  const make = () => {
    const mirror = new Mirror(instance, 4, 12);
    mirror.process(TEXT);
    assert.equal(mirror.join(), 0n);
    mirror.update(0n);
    mirror.process("\r\nmore");
    return mirror;
  };
  const calls = [
    (mirror) => mirror.setSize(7, 20),
    (mirror) => void mirror.update(0n),
    (mirror) => void mirror.updateScrolling(0n),
    (mirror) => void mirror.updateWith(0n, { portable: true }),
  ];
  for (const run of calls) {
    // Which updates are due is what a failed call must not change.
    assert.ok(failures(make, run, (mirror) => mirror.isCurrent(0n)) > 0, run.toString());
  }
});

test("an update or a number that could not be returned is that of the next call", () => {
  const mirror = new Mirror(instance, 4, 12);
  assert.ok(hasStatus(1)(withFreeBytes(0, () => mirror.join()).error));
  const viewer = mirror.join();
  assert.equal(viewer, 0n);
  mirror.process("text");
  for (const name of ["update", "updateScrolling"]) {
    assert.ok(hasStatus(1)(withFreeBytes(0, () => mirror[name](viewer)).error), name);
  }
  assert.deepEqual(mirror.update(viewer), { text: "\x1b[?25h\x1b[m\x1b[H\x1b[Jtext", size: { rows: 4, cols: 12 } });
  mirror.free();
});

test("events for which there is no memory are lost, and no input is", () => {
  const [rows, cols] = [150, 100], line = "e\u0301\u0302\u0303".repeat(cols), heard = new Set();
  for (let count = 0; heard.size < 2; count += 20000) {
    let scrolled = 0, lost = 0;
    const callbacks = { onScroll: (found) => (scrolled += found.length), eventsLost: () => lost++ };
    const parser = new Parser(instance, rows, cols, { callbacks });
    parser.process(line.repeat(rows));
    // The last byte scrolls all rows, whose text needs more room than other calls.
    assert.equal(withFreeBytes(count, () => parser.process(`\x1b[${rows}S\x1b[Hafter`)).error, undefined);
    assert.match(parser.contents(), /^after/);
    assert.equal(lost, scrolled === rows ? 0 : 1, `${scrolled} rows`);
    heard.add(lost);
    parser.free();
  }
});

test("a parser whose input found no memory processes no more", () => {
  for (const options of [{ scrollback: 100 }, { scrollback: 100, callbacks: { audibleBell() {} } }]) {
    const parser = parserOf(options), before = describeScreen(parser);
    assert.ok(hasStatus(1)(withFreeBytes(0, () => parser.process("\r\n".repeat(50))).error));
    assert.throws(() => parser.process("x"), hasStatus(2));
    assert.equal(parser.contents(), before[1].slice(0, 4).join("\n"));
    parser.free();
  }
});
