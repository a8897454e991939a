// Opens pages of vt100-share in Chromium, for the tests.

import { writeFile } from "node:fs/promises";
import { Browser } from "../../bindings/js/view/tests/lib/browser.mjs";

/** The values of `modifiers` in events. */
export const CTRL = 2, SHIFT = 8;

/** Whether the font fits the window. Its size changes with the next drawing after the first screen has come. */
export const FITS = `(({ width, height }) => width <= innerWidth && height <= innerHeight
  && (width > innerWidth * 0.8 || height > innerHeight * 0.8))(
  document.querySelector("vt100-view").shadowRoot.querySelector("canvas").getBoundingClientRect())`;

// Violations of the Content-Security-Policy are not messages of the console by themselves.
const WATCH = `addEventListener("securitypolicyviolation", ({ violatedDirective, blockedURI }) =>
  console.log("violation", violatedDirective, blockedURI))`;

/** A browser with a page of vt100-share. */
export class SharedPage {
  /** Starts a browser with a window of a size, or one that emulates a phone. */
  static async start({ width = 900, height = 500, isPhone = false } = {}) {
    const page = new SharedPage();
    page.browser = await Browser.start({ width, height });
    await page.browser.send("Page.addScriptToEvaluateOnNewDocument", { source: WATCH });
    if (isPhone) {
      const screen = { width, height, deviceScaleFactor: 2, mobile: true };
      await page.browser.send("Emulation.setDeviceMetricsOverride", screen);
      await page.browser.send("Emulation.setTouchEmulationEnabled", { enabled: true, maxTouchPoints: 5 });
    }
    return page;
  }

  /** Opens a page anew, although addresses that differ in their fragments are those of one page. */
  async open(url) {
    await this.browser.send("Page.navigate", { url: "about:blank" });
    await this.browser.open(url);
  }

  evaluate(expression) {
    return this.browser.evaluate(expression);
  }

  /** Waits until an expression has a true value, and returns that. Fails after 50 seconds, with the page's contents. */
  until(expression) {
    return this.evaluate(`new Promise((done, fail) => {
      const end = Date.now() + 50_000;
      (function wait() {
        const value = (() => ${expression})();
        if (value) done(value);
        else if (Date.now() > end) fail(new Error("not in time: " + globalThis.shared?.contents + document.body.textContent));
        else setTimeout(wait, 20);
      })();
    })`);
  }

  /** Waits until the screen contains a text, and returns its contents. */
  contentsWith(text) {
    return this.until(`globalThis.shared?.contents.includes(${JSON.stringify(text)}) && shared.contents`);
  }

  /** Returns the text of the element with an identifier. */
  text(id) {
    return this.evaluate(`document.getElementById(${JSON.stringify(id)}).textContent`);
  }

  /** Presses keys, each with its text and its modifiers. */
  async press(...keys) {
    for (const [key, text, modifiers = 0] of keys) {
      await this.browser.send("Input.dispatchKeyEvent", { type: "keyDown", key, text, modifiers });
      await this.browser.send("Input.dispatchKeyEvent", { type: "keyUp", key, modifiers });
    }
  }

  /** Returns the middle of a cell, in the coordinates of events. */
  async cell(row, col) {
    await this.until(FITS);
    // The size of the font may change with the next drawing.
    await this.evaluate("new Promise((done) => requestAnimationFrame(() => requestAnimationFrame(done)))");
    const view = await this.evaluate(`(({ cellWidth, cellHeight }) => ({ cellWidth, cellHeight }))(
      document.querySelector("vt100-view"))`);
    return [(col + 0.5) * view.cellWidth, (row + 0.5) * view.cellHeight];
  }

  /** Returns the middle of the first element that a selector finds. */
  middle(selector) {
    return this.evaluate(`(({ x, y, width, height }) => [x + width / 2, y + height / 2])(
      document.querySelector(${JSON.stringify(selector)}).getBoundingClientRect())`);
  }

  /** Touches a point, moves the finger over others, and lifts it. */
  async touch(first, ...others) {
    const points = ([x, y]) => ({ touchPoints: [{ x, y }] });
    await this.browser.send("Input.dispatchTouchEvent", { type: "touchStart", ...points(first) });
    for (const point of others) await this.browser.send("Input.dispatchTouchEvent", { type: "touchMove", ...points(point) });
    await this.browser.send("Input.dispatchTouchEvent", { type: "touchEnd", touchPoints: [] });
  }

  /** Taps on a point until an expression has a true value, and returns that. On a busy machine, a tap may take so long that
      it is a long press, after which there is no click. */
  async tap(point, expression) {
    for (let count = 0; count < 20; count++) {
      await this.touch(point);
      for (let wait = 0; wait < 20; wait++) {
        const value = await this.evaluate(expression);
        if (value) return value;
        await new Promise((done) => setTimeout(done, 50));
      }
    }
    throw new Error("no tap");
  }

  /** Touches a point for a number of milliseconds. */
  async hold([x, y], milliseconds) {
    await this.browser.send("Input.dispatchTouchEvent", { type: "touchStart", touchPoints: [{ x, y }] });
    await new Promise((done) => setTimeout(done, milliseconds));
    await this.browser.send("Input.dispatchTouchEvent", { type: "touchEnd", touchPoints: [] });
  }

  /** Writes a picture to a file, if it has a name. */
  async picture(path) {
    if (path) await writeFile(path, await this.browser.screenshot());
  }

  /** What the page has written to its console. */
  get messages() {
    return this.browser.messages;
  }

  stop() {
    return this.browser.stop();
  }
}

/** Runs a test with a page, and writes what it returns, and the page's messages, as JSON. */
export async function report(options, test) {
  const page = await SharedPage.start(options);
  try {
    console.log(JSON.stringify({ ...await test(page), messages: page.messages }));
  } finally {
    await page.stop();
  }
}
