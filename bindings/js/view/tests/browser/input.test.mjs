import assert from "node:assert/strict";
import { test } from "node:test";
import { openPage } from "./setup.mjs";

const browser = await openPage("tests/browser/blank.html");
const show = (rows, cols, text, scrollback = 0) =>
  browser.evaluate(`show(${rows}, ${cols}, ${JSON.stringify(text)}, { scrollback: ${scrollback} }); 0`);
const point = (row, col, x) => browser.evaluate(`pointOf(${row}, ${col}, ${x})`);
const selected = () => browser.evaluate("view.selectedText");
const NUMBERED = Array.from({ length: 30 }, (_, k) => `line ${k}`).join("\r\n");

test("dragging selects text, in either direction, and a click clears the selection", async () => {
  await show(3, 10, "abcdefg\r\nhijk");
  await browser.drag(await point(0, 2, 0.1), await point(1, 1, 0.9));
  assert.equal(await selected(), "cdefg\nhi");
  await browser.drag(await point(1, 1, 0.9), await point(0, 2, 0.1));
  assert.equal(await selected(), "cdefg\nhi");
  await browser.click(...await point(0, 5, 0.5));
  assert.equal(await selected(), "");
});

test("wrapped rows are one line, and wide characters are whole", async () => {
  await show(4, 6, "abcdefghi\r\n日本語x");
  await browser.drag(await point(0, 1, 0.1), await point(1, 2, 0.9));
  assert.equal(await selected(), "bcdefghi");
  await browser.drag(await point(2, 1, 0.1), await point(2, 2, 0.9));
  assert.equal(await selected(), "日本");
});

test("a double click selects a word, a triple click a line, and Shift extends", async () => {
  await show(4, 12, "see a/b.txt and more\r\nnext");
  await browser.click(...await point(0, 6, 0.5), 2);
  assert.equal(await selected(), "a/b.txt");
  await browser.click(...await point(1, 1, 0.5), 3);
  assert.equal(await selected(), "see a/b.txt and more");
  await browser.click(...await point(0, 4, 0.1));
  await browser.mouse("mousePressed", ...await point(0, 6, 0.9), { button: "left", clickCount: 1, modifiers: 8 });
  await browser.mouse("mouseReleased", ...await point(0, 6, 0.9), { button: "left", clickCount: 1, modifiers: 8 });
  assert.equal(await selected(), "a/b");
});

test("the copy command copies the selection", async () => {
  await show(3, 6, "abcdefghi\r\nnext");
  await browser.evaluate(`addEventListener("copy", (event) => {
    globalThis.copied = event.clipboardData.getData("text/plain");
  })`);
  await browser.drag(await point(0, 2, 0.1), await point(2, 1, 0.9));
  await browser.command("c", "copy");
  assert.equal(await browser.evaluate("copied"), "cdefghi\nne");
});

test("a selection that a program makes or clears is reported", async () => {
  await show(2, 10, "abcdef\r\nxyz");
  const found = await browser.evaluate(`(() => {
    const ranges = [], texts = [], listener = ({ detail }) => {
      ranges.push(detail.range);
      texts.push(view.selectedText);
    };
    view.addEventListener("selectionchange", listener);
    view.select({ row: 1, col: 2 }, { row: 0, col: 1 });
    ranges.push(view.selectedRange);
    view.selectAll();
    view.clearSelection();
    view.clearSelection();
    view.removeEventListener("selectionchange", listener);
    return [ranges, texts, view.selectedRange];
  })()`);
  const range = { start: { row: 0, col: 1 }, end: { row: 1, col: 2 } };
  const all = { start: { row: 0, col: 0 }, end: { row: 1, col: 10 } };
  assert.deepEqual(found, [[range, range, all, null], ["bcdef\nxy", "abcdef\nxyz", ""], null]);
});

test("a selection stays with its text, and ends when the text changes", async () => {
  await show(5, 10, NUMBERED, 100);
  await browser.click(...await point(2, 0, 0.5), 3);
  assert.equal(await selected(), "line 27");
  const text = (output) => browser.evaluate(`parser.process(${JSON.stringify(output)}); view.draw(); view.selectedText`);
  assert.equal(await text("\r\nmore\r\nand more"), "line 27");
  assert.equal(await text("\r\n1\r\n2\r\n3\r\n4\r\n5\r\n6"), "line 27");
  await show(5, 10, "one\r\ntwo");
  await browser.click(...await point(0, 0, 0.5), 2);
  assert.equal(await text("\x1b[1;9Hx"), "one");
  assert.equal(await text("\x1b[1;2Hx"), "");
  await browser.click(...await point(0, 0, 0.5), 2);
  assert.equal(await text("\x1b[?1049h"), "");
});

test("a selection survives another size of the screen if its text does", async () => {
  const resized = (code) => browser.evaluate(`${code}; view.draw(); view.selectedText`);
  await show(5, 10, "one two\r\nthree\r\nfour");
  await browser.drag(await point(0, 4, 0.1), await point(1, 4, 0.9));
  assert.equal(await selected(), "two\nthree");
  assert.equal(await resized("parser.setSize(4, 30)"), "two\nthree");
  assert.equal(await resized("parser.setSize(3, 7)"), "two\nthree");
  assert.equal(await resized("parser.setSize(3, 6)"), "");
  await browser.drag(await point(0, 0, 0.1), await point(0, 2, 0.9));
  assert.equal(await resized("parser.setSize(3, 9); parser.process('\\x1b[HX')"), "");
  await show(5, 10, "one two\r\nthree\r\nfour\r\nfive");
  await browser.drag(await point(3, 0, 0.1), await point(3, 3, 0.9));
  assert.equal(await resized("parser.setSize(3, 10)"), "");
  await show(5, 10, NUMBERED, 100);
  await browser.evaluate("view.scrollRows(10)");
  await browser.click(...await point(1, 0, 0.5), 3);
  assert.equal(await resized("parser.setSize(5, 6)"), "line 16");
});

test("a selection that is not displayed ends when full scrollback drops rows", async () => {
  await show(5, 10, NUMBERED, 10);
  await browser.click(...await point(0, 0, 0.5), 3);
  const after = (code) => browser.evaluate(`${code}; view.draw(); view.selectedText`);
  assert.equal(await after("view.scrollRows(10)"), "line 25");
  assert.equal(await after("view.scrollRows(-10)"), "line 25");
  assert.equal(await after("view.scrollRows(10); parser.process('\\r\\nmore')"), "");
});

test("the wheel scrolls back and forth, with an event", async () => {
  await show(5, 10, NUMBERED, 100);
  const wheel = async (deltaY) => {
    const count = await browser.evaluate("scrolls.length");
    await browser.mouse("mouseWheel", ...await point(2, 2, 0.5), { deltaX: 0, deltaY });
    return browser.until(`scrolls.length > ${count} && [parser.scrollback, parser.rows()[0], scrolls]`);
  };
  await browser.evaluate(`globalThis.scrolls = [];
    view.addEventListener("scrollbackchange", ({ detail }) => scrolls.push(detail.scrollback)); 0`);
  const height = await browser.evaluate("view.cellHeight");
  assert.deepEqual(await wheel(-3 * height), [3, "line 22", [3]]);
  assert.deepEqual(await wheel(-1000 * height), [25, "line 0", [3, 25]]);
  assert.deepEqual(await wheel(1000 * height), [0, "line 25", [3, 25, 0]]);
});

test("keys scroll", async () => {
  await show(5, 10, NUMBERED, 100);
  await browser.evaluate("view.focus()");
  const press = async (key, modifiers = 8) => {
    await browser.press(key, { modifiers });
    return browser.evaluate("parser.scrollback");
  };
  const seen = [await press("PageUp"), await press("Home"), await press("PageDown"), await press("End")];
  assert.deepEqual(seen, [5, 25, 20, 0]);
  // Without Shift, or with other modifiers, they are the program's.
  const others = [];
  for (const modifiers of [0, 9, 10, 12]) others.push(await press("PageUp", modifiers), await press("Home", modifiers));
  assert.deepEqual(others, Array(8).fill(0));
});

test("a wheel that turns by rows or pages scrolls by them", async () => {
  await show(5, 10, NUMBERED, 100);
  const turn = (deltaMode, deltaY) => browser.evaluate(`view.dispatchEvent(
    new WheelEvent("wheel", { deltaMode: ${deltaMode}, deltaY: ${deltaY}, cancelable: true })), parser.scrollback`);
  assert.deepEqual([await turn(1, -3), await turn(2, -2), await turn(1, 2), await turn(2, 1)], [3, 13, 11, 6]);
});

test("dragging past an edge scrolls, and selects on", async () => {
  await show(5, 10, NUMBERED, 100);
  await browser.evaluate("view.scrollRows(10)");
  const [x, y] = await point(2, 0, 0.1), height = await browser.evaluate("view.cellHeight");
  const drag = async (toY, condition) => {
    await browser.mouse("mousePressed", x, y, { button: "left", clickCount: 1 });
    await browser.mouse("mouseMoved", x, toY, { button: "left", buttons: 1 });
    await browser.until(condition);
    await browser.mouse("mouseReleased", x, toY, { button: "left", clickCount: 1 });
  };
  await drag(y + 5 * height, "parser.scrollback === 0");
  assert.match(await selected(), /^line 17\nline 18\n/);
  await browser.evaluate(`view.style.marginTop = "200px"; view.scrollRows(10)`);
  const top = await browser.evaluate("canvasOf().getBoundingClientRect().top");
  await browser.mouse("mousePressed", x, top + 2.5 * height, { button: "left", clickCount: 1 });
  await browser.mouse("mouseMoved", x, top - height, { button: "left", buttons: 1 });
  await browser.until("parser.scrollback === 25");
  await browser.mouse("mouseReleased", x, top - height, { button: "left", clickCount: 1 });
  assert.match(await selected(), /^line 0\n/);
  // After the release, nothing scrolls on.
  await browser.evaluate(`view.style.marginTop = ""; view.scrollRows(-5)`);
  assert.equal(await browser.evaluate("new Promise((done) => setTimeout(() => done(parser.scrollback), 150))"), 20);
});

test("a selection that begins in scrollback", async () => {
  await show(5, 10, NUMBERED, 100);
  await browser.evaluate("view.scrollRows(10)");
  await browser.drag(await point(1, 0, 0.1), await point(1, 1, 0.1));
  await browser.evaluate("view.scrollRows(-10)");
  await browser.mouse("mousePressed", ...await point(0, 7, 0.1), { button: "left", clickCount: 1, modifiers: 8 });
  await browser.mouse("mouseReleased", ...await point(0, 7, 0.1), { button: "left", clickCount: 1, modifiers: 8 });
  assert.equal(await selected(), Array.from({ length: 10 }, (_, k) => `line ${k + 16}`).join("\n"));
  await browser.evaluate("view.selectAll()");
  assert.equal(await selected(), NUMBERED.replaceAll("\r", ""));
});

test("wrong arguments are refused, and change nothing", async () => {
  await show(2, 10, "abcdef");
  const errors = await browser.evaluate(`(() => {
    view.select({ row: 0, col: 1 }, { row: 0, col: 3 });
    const nowhere = { row: 0, col: 0 };
    return [
      () => view.attach(5), () => view.attach(null), () => view.attach({}),
      () => view.select(nowhere), () => view.select({ row: "0", col: 0 }, nowhere), () => view.select(nowhere, { row: 0 }),
      () => view.select(nowhere, { row: -1, col: 0 }), () => view.select({ row: 0, col: 0.5 }, nowhere),
      () => { view.theme = null; }, () => { view.theme = { forground: "#fff" }; }, () => { view.theme = "dark"; },
      () => view.scrollRows(NaN), () => view.scrollRows("1"), () => { view.fontSize = "16"; }, () => { view.fontSize = 0; },
      () => { view.lineHeight = -1; }, () => { view.lineHeight = null; }, () => { view.fit = "height"; },
      () => { view.fit = null; }, () => { view.cursorShape = "beam"; }, () => { view.cursorShape = 1; },
      () => view.sizeThatFits("9", 9), () => view.sizeThatFits(9, NaN), () => view.sizeThatFits(9, -1),
    ].map((call) => {
      try {
        call();
        return "none";
      } catch ({ name }) {
        return name;
      }
    });
  })()`);
  const [type, range] = ["TypeError", "RangeError"];
  assert.deepEqual(errors, [
    ...[type, type, type, type, type, type, range, range, type, type, type, range, type, type, range],
    ...[range, type, range, type, range, type, type, range, range],
  ]);
  const state = `[view.selectedText, view.screen === parser, view.theme === Theme.dark, view.fit, view.lineHeight,
    view.cursorShape, view.getAttribute("fit")]`;
  assert.deepEqual(await browser.evaluate(state), ["bc", true, true, "none", 1, "block", null]);
});

test("mouse events are left to programs that request them, but not with Shift", async () => {
  await show(3, 10, "\x1b[?1000habcdefg");
  await browser.evaluate("view.mouseReporting = true; 0");
  await browser.drag(await point(0, 1, 0.1), await point(0, 3, 0.1));
  assert.equal(await selected(), "");
  const options = { button: "left", clickCount: 1, modifiers: 8 };
  await browser.mouse("mousePressed", ...await point(0, 1, 0.1), options);
  await browser.mouse("mouseMoved", ...await point(0, 3, 0.1), { ...options, buttons: 1 });
  await browser.mouse("mouseReleased", ...await point(0, 3, 0.1), options);
  assert.equal(await selected(), "bc");
  await browser.evaluate("view.mouseReporting = false; 0");
  const cells = await browser.evaluate("[view.cellAt(...pointOf(2, 9)), view.cellAt(...pointOf(3, 0))]");
  assert.deepEqual(cells, [{ row: 2, col: 9 }, null]);
});

test("the text is accessible, and changes are announced", async () => {
  await show(3, 20, "first row\r\n日本 wide");
  const live = "view.shadowRoot.querySelector('[aria-live]').textContent";
  await browser.until(`/first row/.test(${live})`);
  await browser.evaluate(`parser.process("\\r\\nthird"); view.draw(); 0`);
  await browser.until(`${live} === "third"`);
  const { nodes } = await browser.send("Accessibility.getFullAXTree");
  const names = nodes.filter(({ role, ignored }) => !ignored && role?.value === "StaticText").map(({ name }) => name.value);
  for (const text of ["first row", "日本 wide", "third"]) assert.ok(names.includes(text), `${text} is not in ${names}`);
  const roles = nodes.map(({ role, name }) => `${role?.value} ${name?.value}`);
  assert.ok(roles.includes("region Terminal") && roles.includes("group Terminal screen"), roles.join());
});

test("changes are not announced if they shall not be", async () => {
  await show(3, 20, "first");
  const textOf = (selector) => `view.shadowRoot.querySelector("${selector}").textContent`;
  const live = textOf("[aria-live]"), rows = textOf("[role=group]");
  await browser.until(`${live} === "first"`);
  await browser.evaluate(`view.announces = false; parser.process("\\r\\nsecond"); view.draw(); 0`);
  await browser.until(`/second/.test(${rows})`);
  assert.equal(await browser.evaluate(live), "first");
  await browser.evaluate("view.announces = true; 0");
});

test("no errors were reported", () => {
  assert.deepEqual(browser.messages, []);
});
