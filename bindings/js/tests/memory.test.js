// The module itself: what it exports, leaks, exhausted memory, and traps.

import assert from "node:assert/strict";
import { readFileSync } from "node:fs";
import { test } from "node:test";
import { Guard } from "../lib/guard.js";
import { load } from "../vt100.js";
import { hasStatus, moduleBytes, moduleWithMaximum, vt100 } from "./module.js";

const PAGE = 65536;
const HEADER = new URL("../../c/vt100.h", import.meta.url);

test("the module exports the functions of the header and no others, and imports nothing", async () => {
  const declared = readFileSync(HEADER, "utf8").matchAll(/^(?:\w+ )+\**(vt100_\w+)\(/gm);
  const functions = [...declared].map(([, name]) => name);
  assert.ok(functions.length > 50);
  const module = new WebAssembly.Module(await moduleBytes());
  assert.deepEqual(WebAssembly.Module.imports(module), []);
  const exported = WebAssembly.Module.exports(module).map(({ name }) => name);
  const others = ["__heap_base", "memory", "vt100_js_free", "vt100_js_malloc"];
  assert.deepEqual(exported.sort(), [...functions, ...others].sort());
});

const TEXT = "\x1b[31mtitle\x1b[m \u4e2d\u6587 line\r\n".repeat(40);
const CALLBACKS = { onScroll() {}, audibleBell() {} };

/** Uses a parser and copies of its screen, and returns all of them. */
function use(vt100) {
  const parser = new vt100.Parser(24, 80, { scrollback: 20, callbacks: CALLBACKS });
  parser.process(TEXT);
  const saved = parser.save();
  const shown = parser.shownCopy();
  saved.contentsFormatted();
  parser.contentsDiff(shown);
  parser.rows();
  return [parser, saved, shown];
}

test("objects that are freed by hand take no more memory", async () => {
  const vt100 = await load(await moduleBytes());
  const sizes = [];
  for (let k = 0; k < 20000; k++) {
    for (const it of use(vt100)) it.free();
    if (k % 5000 === 4999) sizes.push(vt100.memory.buffer.byteLength);
  }
  assert.ok(sizes.every((size) => size === sizes[0]), String(sizes));
});

test("texts and records that need more room than other calls take no more memory", async () => {
  const vt100 = await load(await moduleBytes());
  const parser = new vt100.Parser(100, 300);
  parser.process("0123456789".repeat(3000));
  const mirror = new vt100.Mirror(100, 300), sizes = [];
  mirror.process("0123456789".repeat(12000));
  for (let k = 0; k < 80; k++) {
    parser.process("\x1b[1;31mx\x1b[m".repeat(1500));
    for (const text of [parser.contentsFormatted(), parser.stateFormatted()]) assert.ok(text.length > 30000);
    assert.equal(parser.allBytes().length, 40 * 100 * 300);
    parser.rowsFormatted();
    parser.cells(0);
    parser.contentsDiff(parser); // which takes a copy
    const viewer = mirror.join();
    mirror.update(viewer);
    mirror.leave(viewer);
    if (k % 20 === 19) sizes.push(vt100.memory.buffer.byteLength);
  }
  assert.ok(sizes.every((size) => size === sizes[0]), String(sizes));
});

test("calls that throw take no more memory", async () => {
  const vt100 = await load(await moduleBytes());
  const freed = new vt100.Parser(3, 10), sizes = [];
  freed.free();
  for (let k = 0; k < 40000; k++) {
    for (const call of [() => freed.save(), () => freed.shownCopy()]) assert.throws(call, hasStatus(6));
    if (k % 10000 === 9999) sizes.push(vt100.memory.buffer.byteLength);
  }
  assert.ok(sizes.every((size) => size === sizes[0]), String(sizes));
});

const noCollector = !globalThis.gc && "no --expose-gc";
test("objects that are left to the garbage collector are freed", { skip: noCollector }, async () => {
  const vt100 = await load(await moduleBytes());
  for (let k = 0; k < 5000; k++) {
    use(vt100);
    if (k % 50 !== 0) continue;
    globalThis.gc();
    // Finalizers run between tasks.
    await new Promise((done) => setTimeout(done));
  }
  // 5000 parsers with their copies take more than 1 GiB.
  assert.ok(vt100.memory.buffer.byteLength < 64 * 2 ** 20, String(vt100.memory.buffer.byteLength));
});

test("the collector frees nothing that has been freed by hand", { skip: noCollector }, async () => {
  const vt100 = await load(await moduleBytes());
  const parserOf = (text) => {
    const parser = new vt100.Parser(3, 10);
    parser.process(text);
    return parser;
  };
  for (let k = 0; k < 300; k++) parserOf("gone").free();
  const live = Array.from({ length: 300 }, (_, k) => parserOf(`live ${k}`));
  let isCollected = false;
  const registry = new FinalizationRegistry(() => (isCollected = true));
  registry.register({}, 0);
  while (!isCollected) {
    globalThis.gc();
    await new Promise((done) => setTimeout(done));
  }
  live.forEach((parser, k) => assert.equal(parser.contents(), `live ${k}`));
});

test("a module out of memory loses nothing", async () => {
  const limited = await load(await moduleWithMaximum(64));
  const kept = new limited.Parser(24, 80, { scrollback: 5 });
  kept.process("still \x1b[1mthere");
  const before = kept.shownCopy();
  const fill = () => {
    const parsers = [];
    assert.throws(() => {
      for (;;) parsers.push(new limited.Parser(50, 100));
    }, hasStatus(1));
    return parsers;
  };
  const parsers = fill();
  assert.ok(limited.memory.buffer.byteLength <= 64 * PAGE);
  assert.equal(kept.cell(0, 6).bold, true);
  assert.equal(kept.rowBytes(0).length, 3200);
  assert.throws(() => kept.setSize(2000, 2000), hasStatus(1));
  assert.deepEqual(kept.size, { rows: 24, cols: 80 });
  for (const it of parsers) it.free();
  assert.equal(kept.contents(), "still there");
  assert.equal(kept.contentsDiff(before), "");
  assert.equal(fill().length, parsers.length);
});

test("a parser that runs out of memory processes no more bytes", async () => {
  const limited = await load(await moduleWithMaximum(24));
  const parser = new limited.Parser(24, 80, { scrollback: 1e9 });
  const line = "0123456789".repeat(7) + "\r\n";
  assert.throws(() => {
    for (;;) parser.process(line);
  }, hasStatus(1));
  assert.throws(() => parser.process("x"), hasStatus(2));
  assert.match(parser.cells(22).map((cell) => cell.text).join(""), /^(0123456789){7}$/);
  parser.clearScrollback();
  assert.throws(() => parser.process("x"), hasStatus(2));
  assert.match(parser.contents(), /^(0123456789){7}\n/);
});

/** Uses the module with 32-bit addresses up to its limit, which the one with 64-bit addresses does not have. */
async function fillMemory() {
  const { exports } = await WebAssembly.instantiate(new WebAssembly.Module(await moduleBytes()), {});
  // The pages are not written, so they take no memory of the machine.
  const large = exports.vt100_js_malloc(0xff000000n);
  assert.notEqual(large, 0n);
  assert.equal(exports.vt100_js_malloc(0x1000000n), 0n);
  assert.equal(exports.vt100_js_malloc(0x100000005n), 0n);
  assert.ok(exports.memory.buffer.byteLength <= 0xffe00000);
  exports.vt100_js_free(large);
  assert.notEqual(exports.vt100_js_malloc(0x1000000n), 0n);
}

if (!process.env.VT100_MEMORY64) test("memory ends below 4 GiB", fillMemory);

test("after a trap, every call traps, and another instance works", async () => {
  const module = new WebAssembly.Module(await moduleBytes());
  const broken = await load(module);
  const parser = new broken.Parser(24, 80);
  const saved = parser.save();
  // No caller can bring about a trap, so all objects are overwritten.
  const { __heap_base: heap } = new WebAssembly.Instance(module).exports;
  new Uint8Array(broken.memory.buffer).fill(0xff, Number(heap.value));
  const isTrap = (error) => error instanceof WebAssembly.RuntimeError;
  assert.throws(() => parser.contentsFormatted(), isTrap);
  const calls = [() => saved.contents(), () => parser.size, () => parser.process("x"), () => new broken.Mirror()];
  for (const call of calls) assert.throws(call, isTrap, call.toString());
  parser.free();
  saved.free();
  const working = await load(module);
  assert.equal(new working.Parser().contents(), "");
});

/** Calls `call` at every depth of the stack, up to the one at which it overflows. */
function overflow(call) {
  call();
  overflow(call);
}

test("after an overflow of the stack during a call, errors name it", async () => {
  const module = new WebAssembly.Module(await moduleBytes());
  const broken = await load(module);
  const parser = new broken.Parser(24, 80), other = new broken.Parser(24, 80);
  parser.process(TEXT);
  assert.throws(() => overflow(() => parser.contentsFormatted()), /RuntimeError: a call was interrupted/);
  for (const call of [() => other.contents(), () => other.process("x"), () => new broken.Mirror(), () => parser.size]) {
    assert.throws(call, (error) => error instanceof WebAssembly.RuntimeError
      && /an earlier call was interrupted by RangeError/.test(error.message) && error.cause instanceof RangeError);
  }
  for (const it of [parser, other]) it.free();
});

test("an overflow of the stack before a call begins breaks nothing", async () => {
  const vt100 = await load(await moduleBytes());
  const parser = new vt100.Parser(3, 10);
  parser.process("text");
  assert.throws(() => overflow(() => {}), RangeError);
  assert.equal(parser.contents(), "text");
});

test("errors name what interrupted the last call, and nothing that was harmless", () => {
  let failure = null, isBroken = false;
  const guard = new Guard({
    memory: null,
    vt100_kind() {
      if (isBroken) throw new WebAssembly.RuntimeError("unreachable");
      return 0;
    },
    vt100_contents() {
      if (failure !== null) throw failure;
      return 1;
    },
  });
  guard.emptyHandle = 8n;
  const { vt100_contents: call } = guard.functions;
  assert.deepEqual(Object.keys(guard.functions), ["vt100_kind", "vt100_contents"]);
  failure = new RangeError("harmless");
  assert.throws(() => call(), (error) => error instanceof WebAssembly.RuntimeError && error.cause === failure);
  failure = null;
  assert.equal(call(), 1);
  [failure, isBroken] = [new RangeError("fatal"), true];
  assert.throws(() => call(), (error) => error.cause === failure);
  assert.throws(() => call(), /an earlier call was interrupted by RangeError: fatal/);
});

test("each instance has memory of its own", async () => {
  const other = await load(await moduleBytes());
  assert.notEqual(other.memory, vt100.memory);
});
