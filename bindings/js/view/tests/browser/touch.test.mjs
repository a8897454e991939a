// Fingers, and what copies text without a mouse.

import assert from "node:assert/strict";
import { test } from "node:test";
import { openPage } from "./setup.mjs";

const browser = await openPage("tests/browser/blank.html");
await browser.send("Emulation.setTouchEmulationEnabled", { enabled: true, maxTouchPoints: 2 });
const NUMBERED = Array.from({ length: 30 }, (_, k) => `line ${k}`).join("\r\n");
const show = (rows, cols, text, scrollback = 0) =>
  browser.evaluate(`show(${rows}, ${cols}, ${JSON.stringify(text)}, { scrollback: ${scrollback} }); 0`);
const point = (row, col) => browser.evaluate(`pointOf(${row}, ${col})`);
const scrollback = () => browser.evaluate("parser.scrollback");

/** Returns points from one to another, at small distances. */
function path([x, y], [endX, endY], steps = 10) {
  return Array.from({ length: steps + 1 }, (_, k) => [x + (endX - x) * k / steps, y + (endY - y) * k / steps]);
}

// Whether the page was kept from scrolling, for each movement.
await browser.evaluate(`globalThis.prevented = [];
  addEventListener("touchmove", (event) => prevented.push(event.defaultPrevented), { passive: true }); 0`);

test("a finger that moves down scrolls back, and one that moves up scrolls forward", async () => {
  await show(10, 20, NUMBERED, 100);
  const height = await browser.evaluate("view.cellHeight"), [x, y] = await point(2, 5);
  await browser.swipe(path([x, y], [x, y + 5 * height]));
  // The page is kept from scrolling. Later, a movement of the page itself might still go on, which nothing can stop.
  assert.deepEqual([await scrollback(), await browser.evaluate("prevented.includes(true)")], [5, true]);
  await browser.swipe(path([x, y], [x, y + 2 * height]));
  assert.equal(await scrollback(), 7);
  await browser.swipe(path([x, y + 5 * height], [x, y + 2 * height]));
  assert.equal(await scrollback(), 4);
  await browser.swipe(path([x, y + 6 * height], [x, y - 2 * height]));
  assert.equal(await scrollback(), 0);
});

test("a finger that moves across, and one where nothing can be scrolled, are left to the page", async () => {
  await show(10, 20, NUMBERED, 100);
  await browser.evaluate("prevented.length = 0");
  const height = await browser.evaluate("view.cellHeight"), [x, y] = await point(5, 5);
  await browser.swipe(path([x, y], [x + 100, y + 5]));
  assert.equal(await scrollback(), 0);
  await browser.swipe(path([x, y], [x, y - 3 * height]));
  const prevented = await browser.evaluate("prevented");
  assert.ok(prevented.length > 0 && !prevented.includes(true), prevented.join());
  await browser.evaluate("prevented.length = 0; view.touchInput = false");
  await browser.swipe(path([x, y], [x, y + 5 * height]));
  assert.equal(await scrollback(), 0);
  await browser.evaluate("view.touchInput = true");
  await browser.swipe(path([x, y], [x, y + 5 * height]));
  assert.equal(await scrollback(), 5);
});

test("a long press selects a word, and moving selects more", async () => {
  await show(4, 30, "see a/b.txt and more");
  const [from, to] = [await point(0, 6), await point(0, 13)];
  const touch = (type, points) =>
    browser.send("Input.dispatchTouchEvent", { type, touchPoints: points.map(([x, y]) => ({ x, y })) });
  await touch("touchStart", [from]);
  await browser.until(`view.selectedText === "a/b.txt"`);
  for (const at of path(from, to).slice(1)) await touch("touchMove", [at]);
  assert.equal(await browser.evaluate("view.selectedText"), "a/b.txt and");
  await touch("touchEnd", []);
  assert.equal(await browser.evaluate("view.selectedText"), "a/b.txt and");
});

test("a selection that has scrolled ends when the finger is lifted", async () => {
  await show(10, 20, NUMBERED.repeat(40), 1000);
  await browser.evaluate("view.scrollRows(900)");
  const [x, y] = await point(2, 2), bottom = await browser.evaluate("canvasOf().getBoundingClientRect().bottom");
  const touch = (type, touchPoints) => browser.send("Input.dispatchTouchEvent", { type, touchPoints });
  await touch("touchStart", [{ x, y }]);
  await browser.until(`view.selectedText !== ""`);
  for (const [toX, toY] of path([x, y], [x, bottom + 5])) await touch("touchMove", [{ x: toX, y: toY }]);
  await browser.until("parser.scrollback < 900");
  await touch("touchEnd", []);
  // Several steps of scrolling would take place in this time.
  const [before, after] = await browser.evaluate(`new Promise((done) => {
    const { scrollback } = parser;
    setTimeout(() => done([scrollback, parser.scrollback]), 200);
  })`);
  assert.ok(before > 0);
  assert.equal(after, before);
});

test("the keyboard selects everything, and copies it", async () => {
  await show(5, 10, NUMBERED, 100);
  await browser.evaluate(`view.focus(); addEventListener("copy", (event) => {
    globalThis.copied = event.clipboardData.getData("text/plain");
  }); 0`);
  await browser.press("a", { code: "KeyA", modifiers: 2 });
  await browser.command("c", "copy");
  assert.equal(await browser.evaluate("copied"), NUMBERED.replaceAll("\r", ""));
  // The page may use the key itself.
  await browser.evaluate(`view.clearSelection();
    addEventListener("keydown", (event) => event.preventDefault(), { capture: true, once: true })`);
  await browser.press("a", { code: "KeyA", modifiers: 2 });
  assert.equal(await browser.evaluate("view.selectedText"), "");
});

test("the context menu can copy what is selected", async () => {
  await show(3, 20, "abcdefg");
  const area = "view.shadowRoot.activeElement", [x, y] = await point(0, 2);
  const click = async (button) => {
    await browser.mouse("mousePressed", x, y, { button, clickCount: 1 });
    await browser.mouse("mouseReleased", x, y, { button, clickCount: 1 });
  };
  await browser.evaluate("view.focus(); 0");
  await click("right");
  assert.equal(await browser.evaluate(area), null);
  await browser.evaluate("view.select({ row: 0, col: 1 }, { row: 0, col: 4 })");
  await click("right");
  const [value, isUnder, canCopy] = await browser.evaluate(`[
    ${area}?.value.slice(${area}.selectionStart, ${area}.selectionEnd),
    view.shadowRoot.elementFromPoint(${x}, ${y}) === ${area}, document.queryCommandEnabled("copy"),
  ]`);
  assert.deepEqual([value, isUnder, canCopy], ["bcd", true, true]);
  // The next click is the view's again.
  await browser.evaluate(`${area}.blur()`);
  assert.deepEqual(await browser.evaluate(`[${area}, document.activeElement === view]`), [null, true]);
});

test("no errors were reported", () => {
  assert.deepEqual(browser.messages, []);
});
