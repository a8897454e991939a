// Drives Debian's Chromium by its DevTools protocol over a pipe, for which node needs no package.

import { spawn } from "node:child_process";
import { mkdtemp, rm } from "node:fs/promises";
import { tmpdir } from "node:os";
import { join } from "node:path";

const ARGUMENTS = [
  "--headless=new", "--no-sandbox", "--disable-gpu", "--hide-scrollbars", "--mute-audio", "--no-first-run",
  "--disable-background-networking", "--disable-component-update", "--remote-debugging-pipe",
];
const TIMEOUT = 300_000;

/** Returns a promise that is rejected after a while. */
function inTime(promise, what) {
  let timer;
  const late = new Promise((_, reject) => (timer = setTimeout(() => reject(new Error(`${what}: no reply`)), TIMEOUT)));
  return Promise.race([promise, late]).finally(() => clearTimeout(timer));
}

/** A browser with one page. */
export class Browser {
  #process;
  #profile;
  #session;
  #next = 1;
  #waiting = new Map();
  #unread = "";
  /** What the page has written to its console, and its uncaught errors. */
  messages = [];

  /**
   * Starts a browser with a window of a size in CSS pixels, and a number of device pixels for each. `ratio` is the number
   * that the monitor has; it is emulated unless `isRealRatio` is true.
   */
  static async start({ command = "chromium", width = 1000, height = 800, ratio = 1, isRealRatio = false } = {}) {
    const browser = new Browser();
    browser.#profile = await mkdtemp(join(tmpdir(), "viewer-"));
    const given = [`--user-data-dir=${browser.#profile}`, `--window-size=${width},${height}`];
    if (isRealRatio) given.push(`--force-device-scale-factor=${ratio}`);
    browser.#process = spawn(command, [...ARGUMENTS, ...given], { stdio: ["ignore", "ignore", "ignore", "pipe", "pipe"] });
    browser.#process.stdio[4].setEncoding("utf8").on("data", (text) => browser.#read(text));
    const { targetId } = await browser.#send("Target.createTarget", { url: "about:blank" });
    const { sessionId } = await browser.#send("Target.attachToTarget", { targetId, flatten: true });
    browser.#session = sessionId;
    await Promise.all([browser.send("Page.enable"), browser.send("Runtime.enable")]);
    const deviceScaleFactor = isRealRatio ? 0 : ratio; // 0 leaves it as it is
    await browser.send("Emulation.setDeviceMetricsOverride", { width, height, deviceScaleFactor, mobile: false });
    return browser;
  }

  #read(text) {
    const parts = (this.#unread + text).split("\0");
    this.#unread = parts.pop();
    for (const part of parts) this.#receive(JSON.parse(part));
  }

  #receive({ id, result, error, method, params }) {
    if (method === "Runtime.consoleAPICalled") this.messages.push(params.args.map(({ value }) => value).join(" "));
    if (method === "Runtime.exceptionThrown") this.messages.push(params.exceptionDetails.exception?.description ?? "error");
    const waiting = this.#waiting.get(id);
    if (waiting === undefined) return;
    this.#waiting.delete(id);
    if (error) waiting.reject(new Error(error.message));
    else waiting.resolve(result);
  }

  #send(method, params, sessionId) {
    const id = this.#next++;
    this.#process.stdio[3].write(`${JSON.stringify({ id, method, params, sessionId })}\0`);
    return inTime(new Promise((resolve, reject) => this.#waiting.set(id, { resolve, reject })), method);
  }

  /** Sends a command to the page. */
  send(method, params = {}) {
    return this.#send(method, params, this.#session);
  }

  /** Opens a page, and waits until its script has said that it is ready. */
  async open(url) {
    await this.send("Page.navigate", { url });
    await this.until("document.body?.dataset.isReady");
  }

  /** Waits until an expression is true in the page, and returns its value. */
  until(condition) {
    return this.evaluate(`new Promise((done) => (function wait() {
      const value = (() => (${condition}))();
      value ? done(value) : setTimeout(wait, 20);
    })())`);
  }

  /** Returns the value of an expression, or of the promise that it returns, in the page. */
  async evaluate(expression) {
    const { result, exceptionDetails } = await this.send("Runtime.evaluate",
      { expression, awaitPromise: true, returnByValue: true, userGesture: true });
    if (exceptionDetails) throw new Error(exceptionDetails.exception?.description ?? exceptionDetails.text);
    return result.value;
  }

  /** Returns a picture of the page, or of a part of it, as PNG. */
  async screenshot(clip) {
    const { data } = await this.send("Page.captureScreenshot", { format: "png", clip: clip && { scale: 1, ...clip } });
    return Buffer.from(data, "base64");
  }

  /** Moves the mouse, presses or releases it, or turns its wheel. */
  mouse(type, x, y, options = {}) {
    return this.send("Input.dispatchMouseEvent", { type, x, y, button: "none", ...options });
  }

  /** Drags the mouse from one point to another with the left button. */
  async drag(from, to) {
    await this.mouse("mousePressed", ...from, { button: "left", clickCount: 1 });
    await this.mouse("mouseMoved", ...to, { button: "left", buttons: 1 });
    await this.mouse("mouseReleased", ...to, { button: "left", clickCount: 1 });
  }

  /** Puts a finger on a point, moves it through others, and lifts it. */
  async swipe([from, ...points]) {
    const touch = (type, touchPoints) => this.send("Input.dispatchTouchEvent", { type, touchPoints });
    await touch("touchStart", [{ x: from[0], y: from[1] }]);
    for (const [x, y] of points) await touch("touchMove", [{ x, y }]);
    await touch("touchEnd", []);
  }

  /** Presses a key, whose name is that of KeyboardEvent.key. */
  async press(key, { modifiers = 0, code = key, ...more } = {}) {
    await this.send("Input.dispatchKeyEvent", { type: "rawKeyDown", key, code, modifiers, ...more });
    await this.send("Input.dispatchKeyEvent", { type: "keyUp", key, code, modifiers });
  }

  /** Clicks once, twice or three times. */
  async click(x, y, count = 1) {
    for (let clickCount = 1; clickCount <= count; clickCount++) {
      await this.mouse("mousePressed", x, y, { button: "left", clickCount });
      await this.mouse("mouseReleased", x, y, { button: "left", clickCount });
    }
  }

  /** Presses a key with which the browser runs an editing command, such as "copy". */
  async command(key, command) {
    const letter = key.toUpperCase();
    const common = { key, code: `Key${letter}`, modifiers: 2, windowsVirtualKeyCode: letter.charCodeAt(0) };
    await this.send("Input.dispatchKeyEvent", { type: "rawKeyDown", commands: [command], ...common });
    await this.send("Input.dispatchKeyEvent", { type: "keyUp", ...common });
  }

  /** Ends the browser. */
  async stop() {
    const ended = new Promise((done) => this.#process.once("exit", done));
    await this.#send("Browser.close").catch(() => this.#process.kill());
    await ended;
    await rm(this.#profile, { recursive: true, force: true, maxRetries: 5 });
  }
}
