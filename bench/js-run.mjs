// js-run.mjs process MODULE FILE: prints the MB/s at which a module processes a file.
// js-run.mjs xterm - FILE: prints the MB/s at which the parser of xterm.js does.
// js-run.mjs rows MODULE FILE: prints the speed at which a module processes a file whose rows are reported, as a part of the
// speed without that: if the callback counts the rows, and if it reads their text.
// js-run.mjs calls MODULE: prints the microseconds that calls take, and how long a module takes to load.
//
// All are of processor time.

import { readFileSync } from "node:fs";
import { createRequire } from "node:module";
import { load } from "../bindings/js/vt100.js";

const XTERM = "/usr/share/nodejs/xterm/lib/public/Terminal.js";
const CHUNK = 4096;

/** Returns the microseconds of processor time that a function takes. */
function spent(run) {
  const start = process.cpuUsage();
  run();
  const { user, system } = process.cpuUsage(start);
  return user + system;
}

/** Prints the MB/s of a pass over some bytes, after a first pass for the engine to compile the code. */
function printSpeed(len, times, pass) {
  pass();
  const microseconds = spent(() => {
    for (let k = 0; k < times; k++) pass();
  });
  console.log(((len * times) / microseconds).toFixed(1));
}

async function processFile(module, file) {
  const { Parser } = await load(readFileSync(module));
  const bytes = readFileSync(file);
  const parser = new Parser(24, 80);
  printSpeed(bytes.length, 12, () => {
    for (let at = 0; at < bytes.length; at += CHUNK) parser.process(bytes.subarray(at, at + CHUNK));
  });
}

async function reportRows(module, file) {
  const { Parser } = await load(readFileSync(module));
  const bytes = readFileSync(file);
  let count = 0;
  const callbacks = [
    {},
    { onScroll: (rows) => (count += rows.length) },
    { onScroll: (rows) => rows.forEach(({ text }) => (count += text.length)) },
  ];
  const parsers = callbacks.map((some) => new Parser(24, 80, { callbacks: some }));
  const best = parsers.map(() => Infinity);
  for (let run = 0; run < 30; run++) {
    parsers.forEach((parser, k) => {
      const microseconds = spent(() => {
        for (let at = 0; at < bytes.length; at += CHUNK) parser.process(bytes.subarray(at, at + CHUNK));
      });
      best[k] = Math.min(best[k], microseconds);
    });
  }
  console.log(best.slice(1).map((time) => (best[0] / time).toFixed(2)).join("\t"));
}

function xterm(_, file) {
  globalThis.window ??= globalThis;
  const { Terminal } = createRequire(import.meta.url)(XTERM);
  const text = readFileSync(file, "utf8");
  // The parser of xterm.js 3.8 reads strings.
  const handler = new Terminal({ cols: 80, rows: 24, scrollback: 0 })._core._inputHandler;
  printSpeed(Buffer.byteLength(text), 3, () => {
    for (let at = 0; at < text.length; at += CHUNK) handler.parse(text.slice(at, at + CHUNK));
  });
}

/** Returns the calls to measure, by their names. */
function callsOf({ Mirror, Parser }) {
  const parser = new Parser(24, 80);
  parser.process("\x1b[32mhello \x1b[1mworld\x1b[m line\r\n".repeat(30));
  const prev = parser.shownCopy();
  parser.process("x");
  const mirror = new Mirror(24, 80);
  const viewer = mirror.join();
  mirror.update(viewer);
  const sixteen = new TextEncoder().encode("\x1b[31mred\x1b[m ab\r\n");
  return {
    "`process` of 16 bytes": () => parser.process(sixteen),
    "`cell`": () => parser.cell(3, 3),
    "`cells` of 80 columns": () => parser.cells(3),
    "`state`": () => parser.state,
    "`contents`": () => parser.contents(),
    "`contentsFormatted`": () => parser.contentsFormatted(),
    "`contentsDiff`": () => parser.contentsDiff(prev),
    "`dirty`, nothing changed": () => parser.dirty(),
    "`shownCopy` and `free`": () => parser.shownCopy().free(),
    "`Mirror.update` after one character": () => {
      mirror.process("y");
      mirror.update(viewer);
    },
  };
}

async function calls(module) {
  const vt100 = await load(readFileSync(module));
  for (const [name, call] of Object.entries(callsOf(vt100))) {
    const times = 5000;
    const run = () => {
      for (let k = 0; k < times; k++) call();
    };
    run();
    const best = Math.min(...Array.from({ length: 5 }, () => spent(run)));
    console.log(`${name}\t${Number((best / times).toPrecision(2))}`);
  }
}

const [what, ...words] = process.argv.slice(2);
await { process: processFile, xterm, rows: reportRows, calls }[what](...words);
