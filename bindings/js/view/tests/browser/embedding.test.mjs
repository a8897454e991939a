// The view in pages of different kinds.

import assert from "node:assert/strict";
import { test } from "node:test";
import { openPage } from "./setup.mjs";

const FONT = "/usr/share/fonts/truetype/dejavu/DejaVuSansMono.ttf";
const browser = await openPage("tests/browser/blank.html", {}, { "/late.ttf": FONT });
const TEXT = "Hello, \x1b[31mred\x1b[m (world)! é ж 中文 שלום\r\n\x1b[41mbg\x1b[m ┌──┐ \x1b[1;4munder\x1b[m";

test("a page from right to left shows what other pages show", async () => {
  const [plain, left, reversed, forced] = await browser.evaluate(`(() => {
    const drawn = () => (view.redraw(), digest());
    show(3, 40, ${JSON.stringify(TEXT)});
    const found = [drawn()];
    document.documentElement.dir = "rtl";
    found.push(canvasOf().getBoundingClientRect().left - view.getBoundingClientRect().left, drawn());
    view.style.direction = "rtl";
    found.push(drawn());
    document.documentElement.dir = "ltr";
    view.style.direction = "";
    return found;
  })()`);
  assert.equal(left, 0);
  assert.deepEqual([reversed, forced], [plain, plain]);
});

test("the hidden text does not make a page scroll", async () => {
  const heights = await browser.evaluate(`(() => {
    show(200, 10, "x");
    view.style.cssText = "height: 300px";
    const found = [document.documentElement.scrollHeight, document.documentElement.clientHeight];
    view.style.cssText = "";
    return found;
  })()`);
  assert.equal(heights[0], heights[1]);
});

test("redraw measures a font that has been loaded, without which the text has other sizes", async () => {
  const [late, before, after, right] = await browser.evaluate(`(async () => {
    const widthOf = (family) => {
      view.fontFamily = family;
      view.redraw();
      return view.cellWidth;
    };
    show(2, 10, "text");
    view.fontSize = 20;
    const right = widthOf('"DejaVu Sans Mono"'), late = widthOf("serif"), before = widthOf('"Late", serif');
    document.fonts.add(await new FontFace("Late", "url(/late.ttf)").load());
    view.redraw();
    return [late, before, view.cellWidth, right];
  })()`);
  assert.notEqual(late, right);
  assert.deepEqual([before, after], [late, right]);
});

test("a font of the page's style is measured when it has been loaded", async () => {
  await browser.evaluate(`{
    const style = document.createElement("style");
    style.textContent = '@font-face { font-family: "Later"; src: url(/late.ttf?later); }';
    document.head.append(style);
    show(2, 10, "text");
    view.fontFamily = '"DejaVu Sans Mono"';
    view.redraw();
    globalThis.wanted = view.cellWidth;
    view.fontFamily = '"Later", serif';
    view.redraw();
  }`);
  await browser.until("view.cellWidth === wanted");
  await browser.evaluate(`view.removeAttribute("font-family"); view.fontSize = 16; 0`);
});

test("a view that was removed is collected", async () => {
  await browser.evaluate(`{
    const other = new TerminalView();
    document.body.append(other);
    other.attach(parser);
    other.draw();
    globalThis.removed = new WeakRef(other);
    other.remove();
  }`);
  let isCollected = false;
  for (let round = 0; round < 20 && !isCollected; round++) {
    await browser.send("HeapProfiler.collectGarbage");
    isCollected = await browser.evaluate("new Promise((done) => setTimeout(() => done(removed.deref() === undefined)))");
  }
  assert.ok(isCollected);
});

test("what a light theme writes is legible", async () => {
  const contrasts = await browser.evaluate(`(() => {
    const partsOf = (color) => [1, 3, 5].map((at) => parseInt(color.slice(at, at + 2), 16) / 255);
    // WCAG 2.1, relative luminance and contrast ratio.
    const linear = (part) => part <= 0.03928 ? part / 12.92 : ((part + 0.055) / 1.055) ** 2.4;
    const luminance = (color) => {
      const [red, green, blue] = partsOf(color).map(linear);
      return 0.2126 * red + 0.7152 * green + 0.0722 * blue;
    };
    const { palette, background, foreground } = Theme.light;
    return [...palette.slice(0, 16), foreground].map((color) => (luminance(background) + 0.05) / (luminance(color) + 0.05));
  })()`);
  const WHITE = 7, BRIGHT_WHITE = 15;
  const faint = contrasts.flatMap((contrast, index) => contrast < 4.5 ? [index] : []);
  assert.deepEqual(faint, [WHITE, BRIGHT_WHITE]);
});

test("characters in HTML and SVG are in their columns", async () => {
  const [left, middle, right, width] = await browser.evaluate(`(() => {
    const parser = show(1, 30, "a  b   c\\x1b[2Cd\\x1b[1;31me"), box = document.createElement("div");
    box.innerHTML = parser.toSvg() + parser.toHtml();
    document.body.append(box);
    const [plain, bold] = box.querySelectorAll("text"), span = box.querySelector("span").getBoundingClientRect();
    const x = (element, index) => element.getStartPositionOfChar(index).x;
    const { left } = box.getBoundingClientRect();
    const found = [x(plain, 3), x(plain, 10), x(bold, 0), (span.left - left) / span.width];
    box.remove();
    return found;
  })()`);
  assert.deepEqual([Math.round(left), Math.round(middle), right], [27, 90, 99]);
  assert.ok(Math.abs(width - 11) < 0.1, `${width}`);
});

test("a worker loads the module from a relative URL", async () => {
  const [inPage, inWorker] = await browser.evaluate(`new Promise((done) => {
    const worker = new Worker("worker.js", { type: "module" });
    worker.onmessage = ({ data }) => done([vt100.version, data]);
    worker.onerror = ({ message }) => done([message]);
  })`);
  assert.equal(inWorker, inPage);
});

test("no errors were reported", () => {
  assert.deepEqual(browser.messages, []);
});
