// The synopsis of the crate, and what its README shows.

import assert from "node:assert/strict";
import { readFileSync } from "node:fs";
import { test } from "node:test";
import { runInNewContext } from "node:vm";
import { TERMINAL_RESTORE, TERMINAL_SETUP } from "../vt100.js";
import { vt100 } from "./module.js";

const { Parser, version } = vt100;

test("the synopsis of the crate", () => {
  const parser = new Parser(24, 80);
  const screen = parser.save();
  parser.process("this text is \x1b[31mRED\x1b[m");
  assert.equal(parser.cell(0, 13).fgcolor, 1);

  const before = parser.save();
  parser.process("\x1b[3D\x1b[32mGREEN");
  assert.equal(parser.contentsFormatted(), "\x1b[?25h\x1b[m\x1b[H\x1b[Jthis text is \x1b[32mGREEN");
  assert.equal(parser.contentsDiff(before), "\x1b[1;14H\x1b[32mGREEN");
  assert.equal(parser.contents(), "this text is GREEN");
  assert.equal(screen.contents(), "");
});

test("the version is that of the header", () => {
  assert.equal(version, "1.3");
});

test("load takes bytes and a compiled module", async () => {
  const { load } = await import("../vt100.js");
  const { moduleBytes } = await import("./module.js");
  const bytes = await moduleBytes();
  for (const source of [bytes, bytes.buffer, new WebAssembly.Module(bytes), Promise.resolve(bytes)]) {
    const { Parser } = await load(source);
    const parser = new Parser(1, 10);
    parser.process("text");
    assert.equal(parser.contents(), "text");
  }
});

test("load takes responses, of any media type", async () => {
  const { load } = await import("../vt100.js");
  const { moduleBytes } = await import("./module.js");
  for (const type of ["application/wasm", "application/octet-stream"]) {
    const response = new Response(await moduleBytes(), { headers: { "Content-Type": type } });
    assert.equal((await load(response)).version, "1.3");
  }
  await assert.rejects(load(new Response("", { status: 404, statusText: "Not Found" })), /404 Not Found/);
});

test("load refuses what is no module, and says why", async () => {
  const { load } = await import("../vt100.js");
  for (const source of ["vt100.wasm", "/srv/vt100.wasm", ""]) {
    await assert.rejects(load(source), /^TypeError: ".*" is not a URL; for a file, pass its URL/);
  }
  for (const source of [null, 5, {}, true]) await assert.rejects(load(source), /^TypeError: load\(\) takes a URL/);
  await assert.rejects(load(new Uint8Array(8)), WebAssembly.CompileError);
});

test("load takes the bytes of another realm", async () => {
  const { load } = await import("../vt100.js");
  const { moduleBytes } = await import("./module.js");
  const buffer = runInNewContext("new ArrayBuffer(length)", { length: (await moduleBytes()).length });
  new Uint8Array(buffer).set(await moduleBytes());
  assert.equal((await load(buffer)).version, version);
});

/** Returns the string that a macro of the header stands for: literals, and other macros, next to each other. */
function macroOf(header, name) {
  const [, body] = new RegExp(`^#define ${name} +((?:.*\\\\\n)*.*)$`, "m").exec(header);
  return [...body.matchAll(/"((?:[^"\\]|\\.)*)"|(VT100_\w+)/g)].map(([, literal, macro]) =>
    macro ? macroOf(header, macro) : literal.replace(/\\x1b|\\x0f|\\r|\\\\/g, (escape) =>
      ({ "\\x1b": "\x1b", "\\x0f": "\x0f", "\\r": "\r", "\\\\": "\\" })[escape])).join("");
}

test("the sequences for real terminals are those of the header", () => {
  const header = readFileSync(new URL("../../c/vt100.h", import.meta.url), "utf8");
  assert.ok(TERMINAL_SETUP.length > 300 && TERMINAL_RESTORE.length > 50);
  assert.equal(TERMINAL_SETUP, macroOf(header, "VT100_TERMINAL_SETUP"));
  assert.equal(TERMINAL_RESTORE, macroOf(header, "VT100_TERMINAL_RESTORE"));
});
