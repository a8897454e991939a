// The script of view.html. Parameters of the page: `wasm`, the URL of the module, and `cast`, that of the recording.

import { load } from "../vt100.js";
import { escape, unescape } from "./escapes.js";
import "./view.js";

const parameters = new URLSearchParams(location.search);
/** @type {(id: string) => any} */
const find = (id) => document.getElementById(id);
const ROWS = 8, COLS = 80;

/** A screen that displays what is typed, with its redraw and the diff from the screen before. */
class Playground {
  #Parser;
  #parser = null;
  #view = find("screen");

  constructor({ Parser }) {
    this.#Parser = Parser;
    find("send").addEventListener("click", () => this.send(find("typed").value));
    find("reset").addEventListener("click", () => this.reset());
    find("typed").addEventListener("keydown", (event) => {
      if (event.key === "Enter" && event.ctrlKey) this.send(find("typed").value);
    });
    this.reset();
  }

  reset() {
    this.#parser?.free();
    this.#parser = new this.#Parser(ROWS, COLS, { scrollback: 1000 });
    this.#view.attach(this.#parser);
    this.#show("");
  }

  send(typed) {
    find("fault").textContent = "";
    try {
      const before = this.#parser.save();
      this.#parser.process(unescape(typed));
      this.#show(this.#parser.contentsDiff(before));
      before.free();
    } catch (error) {
      find("fault").textContent = error.message;
    }
  }

  #show(diff) {
    this.#view.draw();
    for (const [id, text] of [["redraw", this.#parser.contentsFormatted()], ["diff", diff]]) {
      find(id).textContent = escape(text);
      find(`${id}-length`).textContent = String(new TextEncoder().encode(text).length);
    }
  }
}

/** Returns the text of a file. */
async function download(url) {
  const response = await fetch(url);
  if (!response.ok) throw new Error(`${url}: ${response.status} ${response.statusText}`);
  return response.text();
}

/** Displays the recording, and the playground even if there is no recording. */
async function begin() {
  const recording = download(parameters.get("cast") ?? "session.cast");
  recording.catch(() => {}); // thrown below, once there is the library
  const vt100 = await load(parameters.get("wasm") ?? undefined), player = document.querySelector("vt100-player");
  player.vt100 = vt100;
  try {
    player.open(await recording);
    performance.mark("first-screen");
  } finally {
    Object.assign(globalThis, { player, playground: new Playground(vt100) });
  }
  find("status").textContent = `Version ${vt100.version} of the interface.`;
}

try {
  await begin();
} catch (error) {
  find("status").textContent = `Failed: ${error.message}`;
}
document.body.dataset.isReady = "true";
