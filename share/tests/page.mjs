// page.mjs CHECK READ WRITE [PICTURE]: checks the page of vt100-share in Chromium. READ and WRITE are its addresses for
// reading and for writing. Writes what it finds, and the page's messages, as JSON. Some checks put a picture of the page into
// the file PICTURE.

import { CTRL, FITS, SHIFT, report } from "./browser.mjs";

const [check, readUrl, writeUrl, picture] = process.argv.slice(2);
const PHONE = { width: 390, height: 700, isPhone: true };

/** Opens the page by the address for reading, and then by that for writing, and types there. */
async function type(page) {
  const found = {};
  await page.open(readUrl);
  found.read = await page.contentsWith("ready");
  found.title = await page.until(`document.title !== "Shared terminal" && document.title`);
  found.status = await page.text("status");
  found.fits = await page.until(FITS);
  await page.press(["x", "x"]);
  await page.open(writeUrl);
  await page.contentsWith("ready");
  await page.press(["é", "é"], ["ArrowUp"]);
  await page.browser.press("Home", { code: "Numpad7" });
  await page.press(["Enter", "\r"]);
  found.write = await page.contentsWith("got");
  await page.picture(picture);
  await page.press(["Enter", "\r"]);
  found.end = await page.until(`document.getElementById("status").textContent.includes("ended")
    && document.getElementById("status").textContent`);
  return found;
}

/** Selects the first word of the screen with a double click, which Shift keeps from the program. */
async function selectWord(page, modifiers) {
  const [x, y] = await page.cell(0, 1);
  for (const clickCount of [1, 2]) {
    await page.browser.mouse("mousePressed", x, y, { button: "left", clickCount, modifiers });
    await page.browser.mouse("mouseReleased", x, y, { button: "left", clickCount, modifiers });
  }
  return page.evaluate(`document.querySelector("vt100-view").selectedText`);
}

/** Uses the mouse while the program requests SGR reports of buttons and of motion while one is held. Then selects text, copies
    it and pastes it. */
async function useMouse(page) {
  const { browser } = page, found = {};
  await page.open(readUrl);
  await page.contentsWith("ready");
  found.readerSelects = await selectWord(page, 0);

  await page.open(writeUrl);
  await page.contentsWith("ready");
  const at = { clickCount: 1 }, first = await page.cell(2, 4), second = await page.cell(3, 7);
  await browser.mouse("mouseMoved", ...first);
  await browser.mouse("mousePressed", ...first, { button: "right", modifiers: CTRL, ...at });
  await browser.mouse("mouseReleased", ...first, { button: "right", modifiers: CTRL, ...at });
  await browser.drag(first, second);
  await browser.mouse("mouseWheel", ...second, { deltaX: 0, deltaY: 120 });
  found.reports = await page.contentsWith("<65;8;4M");

  found.writerSelects = await selectWord(page, SHIFT);
  await browser.send("Browser.grantPermissions", { permissions: ["clipboardReadWrite", "clipboardSanitizedWrite"] });
  await browser.command("c", "copy");
  found.isCleared = await page.until(`document.querySelector("vt100-view").selectedRange === null`);
  found.copied = await page.evaluate("navigator.clipboard.readText()");
  await browser.send("Input.dispatchKeyEvent", { type: "rawKeyDown", commands: ["paste"], key: "v", modifiers: CTRL | SHIFT,
    code: "KeyV", windowsVirtualKeyCode: 86 });
  found.pasted = await page.contentsWith("201~");
  return found;
}

/** Returns the position of a text on the screen. */
const find = (text) => `(() => {
  const row = shared.contents.split("\\n").findIndex((line) => line.includes(${JSON.stringify(text)}));
  return row >= 0 && [row, shared.contents.split("\\n")[row].indexOf(${JSON.stringify(text)}) + 1];
})()`;

/** Uses mc, which shows the directories alpha and beta: makes one called gamma by keys, and deletes beta, on which it clicks. */
async function useMc(page) {
  await page.open(writeUrl);
  await page.contentsWith("Quit");
  await page.press(["F7"]);
  await page.contentsWith("Create a new Directory");
  await page.press(...Array.from("gamma", (letter) => [letter, letter]), ["Enter", "\r"]);
  await page.contentsWith("/gamma");

  await page.browser.click(...await page.cell(...await page.until(find("/beta"))));
  // The line below the list names the selected file: it is then on the screen three times, with the two lists.
  await page.until(`shared.contents.split("/beta").length === 4 && true`);
  await page.picture(picture);
  await page.press(["F8"]);
  await page.contentsWith("Delete directory");
  await page.press(["Enter", "\r"]);
  await page.until(`!shared.contents.includes("/beta")`);
  return { contents: await page.evaluate("shared.contents") };
}

// Types a line as another viewer.
const TYPE_ELSEWHERE = `new Promise((done) => {
  const bytes = (text) => new TextEncoder().encode(text), place = location.href.replace(/^http/, "ws").replace(/#.*/, "");
  const socket = new WebSocket(new URL("viewer", place));
  socket.onopen = () => {
    socket.send(bytes("t" + location.hash.slice(1)));
    socket.send(bytes("i\\r"));
    done();
  };
})`;
const TOP = `shared.contents.split("\\n")[0]`;

/** Scrolls back. The program has printed the numbers from 1 to 300, and prints the next number for each line. */
async function scrollBack(page) {
  const found = {}, top = () => page.evaluate(TOP);
  /** Waits until so many rows are kept. */
  const rows = (count) => page.until(`shared.state?.scrollbackLen >= ${count}`);

  await page.open(readUrl);
  await page.contentsWith("300");
  await rows(100);
  found.kept = await page.evaluate("shared.state.scrollbackLen");
  found.bottom = Number(await top());
  await page.press(["PageUp", undefined, SHIFT]);
  found.page = found.bottom - Number(await top());
  found.shown = await page.until(`document.getElementById("scrollback").textContent`);
  await page.browser.mouse("mouseWheel", 100, 100, { deltaX: 0, deltaY: -200 });
  found.wheel = await page.until(`Number(${TOP}) < ${found.bottom - found.page} && ${TOP}`) !== "";
  await page.press(["Home", undefined, SHIFT]);
  found.oldest = Number(await top());
  await page.press(["End", undefined, SHIFT]);
  found.end = Number(await top());

  await page.open(writeUrl);
  await page.contentsWith("300");
  await rows(100);
  await page.press(["PageUp", undefined, SHIFT]);
  const before = await top();
  // A line that another viewer types scrolls the screen, but not what is displayed.
  await page.evaluate(TYPE_ELSEWHERE);
  await rows(101);
  found.stays = await top() === before;
  await page.press(["Enter", "\r"]);
  await page.contentsWith("302");
  found.typed = Number(await top()) - found.bottom;
  return found;
}

/** Taps and scrolls as on a phone while the program requests reports of the mouse, and prints what it reads. */
async function tap(page) {
  const found = {};
  await page.open(writeUrl);
  await page.contentsWith("ready");
  await page.evaluate("document.activeElement.blur()");
  found.tapped = await page.tap(await page.cell(3, 9), `shared.contents.includes("4m") && shared.contents`);
  found.focus = await page.evaluate("document.activeElement.id");
  const [x, y] = await page.cell(20, 4);
  await page.touch([x, y], [x, y - 40], [x, y - 80]);
  found.swept = await page.contentsWith("<65;");
  found.keyboard = await page.tap(await page.middle("[data-key=Keyboard]"), "document.activeElement.id");
  return found;
}

const KEYS = `getComputedStyle(document.getElementById("keys")).display`;

/** Types and scrolls as on a phone. The program has printed 300 lines, and prints what it reads. */
async function usePhone(page) {
  const { browser } = page, found = {};
  await page.open(readUrl);
  await page.contentsWith("ready");
  found.readerKeys = await page.evaluate(KEYS);

  await page.open(writeUrl);
  await page.contentsWith("ready");
  found.writerKeys = await page.evaluate(KEYS);
  found.width = await page.until(`document.documentElement.scrollWidth <= innerWidth && innerWidth`);
  await page.evaluate("document.activeElement.blur()");
  found.focus = await page.tap([100, 60], "document.activeElement.id");

  // A touch keyboard composes words, and deletes what is before the cursor.
  for (const [text, start] of [["l", 1], ["ls", 2]]) {
    await browser.send("Input.imeSetComposition", { text, selectionStart: start, selectionEnd: start });
  }
  await page.contentsWith("ls");
  await browser.send("Input.insertText", { text: "ls" });
  await browser.send("Input.dispatchKeyEvent", { type: "rawKeyDown", commands: ["deleteBackward"], key: "Unidentified",
    windowsVirtualKeyCode: 229 });
  await page.contentsWith("^?");
  for (const key of ["Escape", "Tab", "ArrowUp", "ArrowLeft", "Control"]) await page.touch(await page.middle(`[data-key=${key}]`));
  await page.until(`document.querySelector("[data-key=Control]").getAttribute("aria-pressed") === "true"`);
  await browser.send("Input.insertText", { text: "bz" });
  found.typed = (await page.contentsWith("^Bz")).split("ready")[1].trim();
  found.focusAfter = await page.evaluate("document.activeElement.id");
  await page.picture(picture);

  await page.hold(await page.middle("[data-key=ArrowDown]"), 800);
  found.repeated = (await page.contentsWith("^[[B^[[B^[[B")).split("^[[B").length - 1;

  await page.until("shared.state.scrollbackLen > 200");
  await page.touch([100, 60], [100, 80], [100, 100], [100, 120]);
  found.back = await page.until("shared.state.scrollback");
  await page.touch([100, 200], [100, 100], [100, 20], [100, 0]);
  await page.touch([100, 200], [100, 100], [100, 20], [100, 0]);
  await page.touch([100, 200], [100, 100], [100, 20], [100, 0]);
  found.end = await page.until("shared.state.scrollback === 0");
  return found;
}

/** Lists the files that the page loads until it displays the screen. */
async function listRequests(page) {
  await page.open(readUrl);
  await page.contentsWith("ready");
  const entries = `performance.getEntriesByType("resource").map(({ name }) => new URL(name).pathname)`;
  return { paths: ["/", ...await page.evaluate(entries)] };
}

const CHECKS = {
  requests: [{}, listRequests],
  type: [{}, type],
  mouse: [{}, useMouse],
  mc: [{}, useMc],
  scrollback: [{ width: 600 }, scrollBack],
  tap: [PHONE, tap],
  phone: [PHONE, usePhone],
};
await report(...CHECKS[check]);
