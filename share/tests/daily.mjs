// daily.mjs CHECK READ WRITE: checks what one does every day on the page of vt100-share, in Chromium. READ and WRITE are its
// addresses for reading and for writing. Commands for the starting terminal are written to the file in $VT100_COMMANDS. Writes
// what it finds, and the page's messages, as JSON.

import { appendFileSync } from "node:fs";
import { SHIFT, report } from "./browser.mjs";

const [check, readUrl, writeUrl] = process.argv.slice(2);

/** Gives the starting terminal a command: "resize ROWS COLS", or "type" and text in JSON. */
const command = (...words) => appendFileSync(process.env.VT100_COMMANDS, `${words.join(" ")}\n`);
const SELECTED = `document.querySelector("vt100-view").selectedText`;

/** Turns the wheel by some pixels over a cell. */
async function turn(page, deltaY, modifiers = 0) {
  await page.browser.mouse("mouseWheel", ...await page.cell(1, 1), { deltaX: 0, deltaY, modifiers });
}

/** Types a letter, and returns the contents once it is at the end: what was sent before it has been read then. */
async function after(page, letter) {
  await page.press([letter, letter]);
  return page.until(`shared.contents.endsWith(${JSON.stringify(letter)}) && shared.contents`);
}

/** Turns the wheel while the program displays the alternate screen, and while it does not. It shows what it reads. */
async function wheel(page) {
  const found = {};
  await page.open(readUrl);
  await page.contentsWith("ready");
  await turn(page, 200);
  await page.open(writeUrl);
  await page.contentsWith("ready");
  await page.until("shared.state.alternateScreen === true");
  const height = await page.evaluate(`document.querySelector("vt100-view").cellHeight`);
  await turn(page, 3 * height);
  found.down = await page.contentsWith("^[OB^[OB^[OB");
  await turn(page, -2 * height);
  found.up = await page.contentsWith("^[OA^[OA");
  await turn(page, 3 * height, SHIFT);
  found.shift = await after(page, "q");
  // The program returns to the main screen.
  await page.press(["Enter", "\r"]);
  await page.until("shared.state.alternateScreen === false");
  await turn(page, 3 * height);
  found.main = await after(page, "m");
  return found;
}

/** Changes the size of the starting terminal while rows are selected, and while the display is scrolled back. */
async function resize(page) {
  const found = {}, top = () => page.evaluate(`shared.contents.split("\\n")[0]`);
  await page.open(readUrl);
  await page.contentsWith("300");
  await page.until("shared.state.scrollbackLen >= 100");
  const select = async (row, col) => {
    const point = await page.cell(row, col);
    await page.browser.click(...point, 2);
    return page.until(`${SELECTED} !== "" && ${SELECTED}`);
  };
  await page.press(["PageUp", undefined, SHIFT]);
  found.selected = await select(2, 1);
  found.before = await top();
  command("resize", 30, 60);
  await page.until("shared.state.rows === 30 && shared.state.cols === 60");
  found.after = await top();
  found.stillSelected = await page.evaluate(SELECTED);
  command("resize", 12, 20);
  await page.until("shared.state.rows === 12 && shared.state.cols === 20");
  await page.until("shared.state.scrollbackLen > 280");
  await page.press(["Home", undefined, SHIFT]);
  found.oldest = await top();
  await page.press(["End", undefined, SHIFT]);
  found.rows = await page.evaluate(`shared.contents.split("\\n")`);
  return found;
}

/** Has the starting terminal take typing back, while the page is scrolled back, and give it again. */
async function typing(page) {
  const found = {}, mayWrite = (value) => page.until(`document.body.dataset.mayWrite === "${value}" && true`);
  await page.open(writeUrl);
  await page.contentsWith("300");
  await page.until("shared.state.scrollbackLen >= 100");
  await page.press(["PageUp", undefined, SHIFT]);
  const before = await page.evaluate("[shared.state.scrollbackLen, shared.state.scrollback]");
  command("type", JSON.stringify("\x1dt"));
  await mayWrite(false);
  await page.press(["x", "x"]);
  found.isKept = JSON.stringify(await page.evaluate("[shared.state.scrollbackLen, shared.state.scrollback]")) === JSON.stringify(before);
  command("type", JSON.stringify("t"));
  await mayWrite(true);
  await page.press(["y", "y"], ["Enter", "\r"]);
  found.typed = await page.contentsWith("got");
  return found;
}

/** Moves the mouse while the program requests all motions: within a cell, to other cells, and while scrolled back. */
async function motions(page) {
  const found = {}, move = (point) => page.browser.mouse("mouseMoved", ...point);
  await page.open(writeUrl);
  await page.contentsWith("ready");
  await page.until("shared.state.scrollbackLen >= 20");
  const [x, y] = await page.cell(3, 4);
  await move([x, y]);
  await page.contentsWith("<35;5;4M");
  await move([x + 1, y]);
  await move([x, y + 1]);
  await move(await page.cell(3, 6));
  found.moved = await page.contentsWith("<35;7;4M");
  await page.press(["PageUp", undefined, SHIFT]);
  await page.until("shared.state.scrollback > 0");
  await move(await page.cell(5, 9));
  await page.browser.click(...await page.cell(5, 9));
  await page.press(["End", undefined, SHIFT]);
  await move(await page.cell(6, 1));
  found.back = await page.contentsWith("<35;2;7M");
  // A press moves the focus to where one types.
  await page.evaluate("document.activeElement.blur()");
  await page.browser.click(...await page.cell(6, 1));
  found.focus = await page.until("document.activeElement.id");
  return found;
}

/** Replaces the token in the address, and returns to the page by the keyboard. */
async function token(page) {
  const found = {};
  await page.open(readUrl);
  await page.contentsWith("300");
  found.reader = await page.evaluate("document.body.dataset.mayWrite");
  await page.evaluate(`globalThis.isOld = true; location.hash = ${JSON.stringify(new URL(writeUrl).hash)}; 0`);
  found.writer = await page.until(`!globalThis.isOld && document.body?.dataset.mayWrite === "true" && "true"`);
  await page.contentsWith("300");
  await page.evaluate("document.activeElement.blur()");
  await page.evaluate(`document.querySelector("vt100-view").focus()`);
  found.focus = await page.evaluate("document.activeElement.id");
  return found;
}

const CHECKS = { wheel, resize, typing, motions, token };
await report({ width: 700, height: 500 }, CHECKS[check]);
