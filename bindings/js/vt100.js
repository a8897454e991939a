// A terminal screen in memory, compiled to WebAssembly. vt100.d.ts describes the types, README.md how to begin.
//
//     import { load } from "./vt100.js";
//     const { Parser } = await load();
//     const parser = new Parser(24, 80);
//     parser.process("this text is \x1b[31mRED\x1b[m");
//     parser.cell(0, 13).fgcolor; // 1

import { Charsets } from "./lib/charsets.js";
import { Vt100Error } from "./lib/errors.js";
import { Instance, isArrayBuffer } from "./lib/instance.js";
import { Mirror } from "./lib/mirror.js";
import { Repeat } from "./lib/options.js";
import { Parser } from "./lib/parser.js";
import { Cell } from "./lib/records.js";
import { Screen } from "./lib/screen.js";
import { TERMINAL_RESTORE, TERMINAL_SETUP } from "./lib/terminal.js";

export { Cell, Repeat, Screen, TERMINAL_RESTORE, TERMINAL_SETUP, Vt100Error };

export const MouseProtocolMode = Object.freeze({
  NONE: 0,
  PRESS: 1,
  PRESS_RELEASE: 2,
  BUTTON_MOTION: 3,
  ANY_MOTION: 4,
});

export const MouseProtocolEncoding = Object.freeze({ DEFAULT: 0, UTF8: 1, SGR: 2 });

export const CursorStyle = Object.freeze({
  DEFAULT: 0,
  BLINK_BLOCK: 1,
  STEADY_BLOCK: 2,
  BLINK_UNDERLINE: 3,
  STEADY_UNDERLINE: 4,
  BLINK_VERTICAL_BAR: 5,
  STEADY_VERTICAL_BAR: 6,
});

/** Returns the bytes of a file. The name of the module is not a literal, so that bundlers for browsers ignore it. */
async function read(file) {
  const name = "node:fs/promises";
  const { readFile } = await import(/* webpackIgnore: true */ /* @vite-ignore */ name);
  return readFile(file);
}

/** Returns the URL of vt100.wasm beside this file. Bundles in other formats than that of modules have no URL. */
function defaultUrl() {
  if (import.meta.url === undefined) throw new TypeError("this bundle does not know its URL: pass the module to load()");
  return new URL("./vt100.wasm", import.meta.url);
}

/** Returns the URL of a string, which may be relative to the page or the worker. */
function urlOf(text) {
  try {
    return new URL(text, globalThis.document?.baseURI ?? globalThis.location?.href);
  } catch (cause) {
    const message = `${JSON.stringify(text)} is not a URL; for a file, pass its URL (pathToFileURL) or its bytes`;
    throw new TypeError(message, { cause });
  }
}

/** Returns the compiled module of a response, while it is downloaded if the server sends the right media type. */
async function compileResponse(response) {
  if (!response.ok) throw new Error(`${response.url}: ${response.status} ${response.statusText}`);
  const type = response.headers.get("Content-Type") ?? "";
  return type.startsWith("application/wasm")
    ? WebAssembly.compileStreaming(response)
    : WebAssembly.compile(await response.arrayBuffer());
}

/** Returns the compiled module. */
async function compile(source) {
  if (source instanceof WebAssembly.Module) return source;
  if (isArrayBuffer(source) || ArrayBuffer.isView(source)) return WebAssembly.compile(source);
  if (typeof source?.arrayBuffer === "function") return compileResponse(source);
  if (!["undefined", "string"].includes(typeof source) && !(source instanceof URL)) {
    throw new TypeError("load() takes a URL, a Response, the bytes of the module, or a WebAssembly.Module");
  }
  const url = source === undefined ? defaultUrl() : urlOf(source);
  return url.protocol === "file:" ? WebAssembly.compile(await read(url)) : compileResponse(await fetch(url));
}

export async function load(source) {
  const { exports } = await WebAssembly.instantiate(await compile(await source), {});
  const instance = new Instance(exports);
  return {
    Parser: class extends Parser {
      constructor(rows, cols, options) {
        super(instance, rows, cols, options);
      }
    },
    Mirror: class extends Mirror {
      constructor(rows, cols, options) {
        super(instance, rows, cols, options);
      }
    },
    Charsets: class extends Charsets {
      constructor() {
        super(instance);
      }
    },
    Screen,
    Cell,
    Repeat,
    MouseProtocolMode,
    MouseProtocolEncoding,
    CursorStyle,
    Vt100Error,
    version: instance.constant(instance.library.vt100_version()),
    memory: instance.memory,
  };
}
