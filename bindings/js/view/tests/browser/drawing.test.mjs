import assert from "node:assert/strict";
import { test } from "node:test";
import { openPage } from "./setup.mjs";

const browser = await openPage("tests/browser/blank.html");
const FOREGROUND = [0xd4, 0xd4, 0xd4], BACKGROUND = [0x10, 0x10, 0x10], SELECTION = [0x35, 0x50, 0x70];

/** Displays output, with the cursor hidden, and returns the value of an expression. */
function shown(rows, cols, text, expression) {
  return browser.evaluate(`show(${rows}, ${cols}, ${JSON.stringify(`\x1b[?25l${text}`)}); ${expression}`);
}

test("colors of backgrounds: default, palette, cube, gray and RGB", async () => {
  const text = "\x1b[41m \x1b[48;5;67m \x1b[48;5;255m \x1b[48;2;1;2;3m \x1b[m ";
  assert.deepEqual(await shown(1, 6, text, "[0, 1, 2, 3, 4, 5].map((col) => pixel(0, col))"),
    [[0xcd, 0x31, 0x31], [95, 135, 175], [238, 238, 238], [1, 2, 3], BACKGROUND, BACKGROUND]);
});

test("colors of text, and inversion", async () => {
  const text = "\x1b[32m█\x1b[m█\x1b[7m█ \x1b[38;2;9;8;7m \x1b[m";
  assert.deepEqual(await shown(1, 5, text, "[0, 1, 2, 3, 4].map((col) => pixel(0, col))"),
    [[0x0d, 0xbc, 0x79], FOREGROUND, BACKGROUND, FOREGROUND, [9, 8, 7]]);
});

test("dim text is between the colors of text and background", async () => {
  const [red] = await shown(1, 2, "\x1b[2m█", "pixel(0, 0)");
  assert.ok(red > 0x40 && red < 0xc0, `${red}`);
});

test("underlined blanks have a line at the bottom", async () => {
  const column = "[...Array(40).keys()].map((k) => pixel(0, 1, 0.5, k / 40)[0])";
  const count = async (text) => new Set(await shown(1, 3, text, column)).size;
  assert.equal(await count("   "), 1);
  assert.equal(await count("\x1b[4m   "), 2);
});

test("bold, italic and underlined text differ from plain text, and each other", async () => {
  const digests = [];
  for (const attribute of ["", 1, 2, 3, 4, 7]) digests.push(await shown(1, 8, `\x1b[${attribute}mtext`, "digest()"));
  assert.equal(new Set(digests).size, 6);
});

test("the lowest and highest parts of characters stay when the next rows are drawn", async () => {
  const sizes = [9, 10, 11, 12, 13, 14, 15, 16, 17, 18, 20, 24, 32];
  const hasPixels = (row, col) => `[...Array(200).keys()].some((k) => pixel(${row}, ${col}, 0.5, k / 200)[0] > 60)`;
  assert.deepEqual(await browser.evaluate(`${JSON.stringify(sizes)}.filter((size) => {
    view.fontSize = size;
    show(3, 4, "\\x1b[?25l____\\r\\n\\r\\n____");
    view.redraw();
    return !(${hasPixels(0, 1)} && ${hasPixels(2, 1)}) || ${hasPixels(1, 1)};
  })`), []);
  await browser.evaluate("view.fontSize = 16; 0");
});

test("a combining character is drawn with its letter", async () => {
  const [plain, accented, next] = [await shown(1, 4, "e", "digest()"), await shown(1, 4, "e\u0301", "digest()"),
    await shown(1, 4, "e\u0301", "pixel(0, 1)")];
  assert.notEqual(plain, accented);
  assert.deepEqual(next, BACKGROUND);
});

test("a wide character has a background of two columns, and stays in them", async () => {
  const expression = "[0, 1, 2, 3].map((col) => pixel(0, col, 0.95, 0.02))";
  const blue = [0x24, 0x72, 0xc8];
  assert.deepEqual(await shown(1, 4, "a\x1b[44m日\x1b[mb", expression), [BACKGROUND, blue, blue, BACKGROUND]);
});

test("box drawing joins between rows and columns", async () => {
  const expression = `[pixel(0, 0, 0.99, 0.5), pixel(0, 1, 0, 0.5), pixel(0, 0, 0.5, 0.99), pixel(1, 0, 0.5, 0)]`;
  assert.deepEqual(await shown(2, 3, "┌─\r\n│", expression), Array(4).fill(FOREGROUND));
  assert.deepEqual(await shown(2, 3, "┏━\r\n┃", expression), Array(4).fill(FOREGROUND));
});

test("cursor: styles, wide characters, hidden, and in a pending wrap", async () => {
  const corners = "[pixel(0, 0, 0.1, 0.1), pixel(0, 0, 0.95, 0.1), pixel(0, 0, 0.5, 0.97)]";
  const cursor = (text) => browser.evaluate(`show(1, 4, ${JSON.stringify(text)}); ${corners}`);
  for (const style of [0, 2]) assert.deepEqual(await cursor(`\x1b[${style} q`), [FOREGROUND, FOREGROUND, FOREGROUND]);
  assert.deepEqual(await cursor("\x1b[4 q"), [BACKGROUND, BACKGROUND, FOREGROUND]);
  assert.deepEqual(await cursor("\x1b[6 q"), [FOREGROUND, BACKGROUND, BACKGROUND]);
  assert.deepEqual(await cursor("\x1b[?25l"), [BACKGROUND, BACKGROUND, BACKGROUND]);
  const both = "[0, 1, 2].map((col) => pixel(0, col, 0.95, 0.02))";
  assert.deepEqual(await browser.evaluate(`show(1, 4, "日\\x1b[H"); ${both}`), [FOREGROUND, FOREGROUND, BACKGROUND]);
  assert.deepEqual(await browser.evaluate(`show(1, 4, "abcd"); pixel(0, 3, 0.95, 0.02)`), FOREGROUND);
});

test("the shape of a cursor is that of its style, and the default one is that of the view", async () => {
  const corners = "[pixel(0, 0, 0.1, 0.1), pixel(0, 0, 0.95, 0.1), pixel(0, 0, 0.5, 0.97)].map(([red]) => red > 0x80)";
  const expected = { 0: [true, false, false], 2: [true, true, true], 4: [false, false, true], 6: [true, false, false] };
  for (const [style, lit] of Object.entries(expected)) {
    assert.deepEqual(await browser.evaluate(`view.cursorShape = "bar"; show(1, 4, "\\x1b[${style} q"); ${corners}`), lit, style);
  }
  await browser.evaluate(`view.cursorShape = "block"; 0`);
});

test("the cursor stays on its row while the display is scrolled back", async () => {
  const rows = "[0, 1, 2, 3].map((row) => pixel(row, 3, 0.5, 0.5)[0] > 0x80)";
  const text = "1\\r\\n2\\r\\n3\\r\\n4\\r\\n5\\r\\n6\\x1b[2;4H\\x1b[2 q";
  const seen = await browser.evaluate(`show(4, 6, "${text}", { scrollback: 10 });
    [0, 1, 1, -1].map((count) => (view.scrollRows(count), ${rows}))`);
  assert.deepEqual(seen, [
    [false, true, false, false], [false, false, true, false], [false, false, false, true], [false, false, true, false],
  ]);
});

test("a blinking cursor goes out and comes back, while a steady one stays", async () => {
  assert.deepEqual(await browser.evaluate(`new Promise((done) => {
    const second = new TerminalView(), steady = new vt100.Parser(1, 4);
    document.body.append(second);
    steady.process("\\x1b[2 q");
    second.attach(steady);
    second.draw();
    show(1, 4, "\\x1b[1 q");
    const lit = [], isLit = (element) => canvasOf(element).getContext("2d").getImageData(1, 1, 1, 1).data[0] > 0x80;
    const timer = setInterval(() => {
      if (lit.at(-1) !== isLit(view)) lit.push(isLit(view));
      if (isLit(second) && lit.length < 3) return;
      clearInterval(timer);
      second.remove();
      done([lit, isLit(second)]);
    }, 20);
  })`), [[true, false, true], true]);
});

test("a cursor does not blink where the reader wants no motion", async () => {
  const media = (value) => browser.send("Emulation.setEmulatedMedia", { features: [{ name: "prefers-reduced-motion", value }] });
  await media("reduce");
  // The view begins to blink only after the draws below, if at all.
  const intervals = await browser.evaluate(`(() => {
    const original = globalThis.setInterval;
    let count = 0;
    globalThis.setInterval = (...values) => (count++, original(...values));
    show(1, 4, "\\x1b[2 q");
    parser.process("\\x1b[1 q");
    view.draw();
    globalThis.setInterval = original;
    return count;
  })()`);
  assert.equal(intervals, 0);
  await media("no-preference");
});

test("a view that is detached keeps what it has drawn", async () => {
  assert.deepEqual(await browser.evaluate(`(() => {
    const parser = show(1, 4, "\\x1b[?25lab"), before = digest();
    view.detach();
    parser.process("cd");
    const seen = [view.draw(), digest() === before, view.screen];
    view.attach(parser);
    return [...seen, view.draw(), digest() === before];
  })()`), [0, true, null, 1, false]);
});

test("a view that is detached does not blink", async () => {
  assert.deepEqual(await browser.evaluate(`(() => {
    const { setInterval, clearInterval } = globalThis, running = new Set();
    globalThis.setInterval = (...values) => {
      const timer = setInterval(...values);
      running.add(timer);
      return timer;
    };
    globalThis.clearInterval = (timer) => {
      running.delete(timer);
      clearInterval(timer);
    };
    show(1, 4, "\\x1b[2 q");
    parser.process("\\x1b[1 q");
    view.draw();
    const counts = [running.size];
    view.detach();
    counts.push(running.size);
    Object.assign(globalThis, { setInterval, clearInterval });
    return counts;
  })()`), [1, 0]);
});

test("many requests are one drawing, before the next frame", async () => {
  const found = await browser.evaluate(`(async () => {
    const { draw } = view, drawn = [];
    show(1, 4, "");
    view.draw = () => drawn.push(draw.call(view));
    parser.process("\\x1b[48;2;200;0;0m \\x1b[m");
    for (let count = 0; count < 3; count++) view.requestDraw();
    const before = [pixel(0, 0), drawn.length];
    await new Promise((done) => requestAnimationFrame(() => requestAnimationFrame(done)));
    delete view.draw;
    return [...before, pixel(0, 0), drawn];
  })()`);
  assert.deepEqual(found, [[212, 212, 212], 0, [200, 0, 0], [1]]);
});

test("only rows that have changed are drawn", async () => {
  assert.deepEqual(await browser.evaluate(`(() => {
    const parser = show(10, 20, "\\x1b[?25l"), counts = [view.draw()];
    for (const text of ["", "x", "\\x1b[5;1Hy\\x1b[7;1Hz", "\\x1b[?25h", "\\x1b[2;1H", "\\x1b[2;1H"]) {
      parser.process(text);
      counts.push(view.draw());
    }
    counts.push(view.redraw());
    return counts;
  })()`), [0, 0, 1, 2, 1, 2, 0, 10]);
});

test("what was drawn row by row is what is drawn at once", async () => {
  assert.deepEqual(await browser.evaluate(`(async () => {
    const player = new CastPlayer(vt100, new Cast(await (await fetch("../../session.cast")).text())), differ = [];
    view.attach(player.parser);
    globalThis.parser = player.parser;
    for (let time = 0; time <= player.duration; time += 0.3) {
      player.seek(time);
      view.draw();
      const drawn = digest();
      view.redraw();
      if (digest() !== drawn) differ.push(time);
    }
    return differ;
  })()`), []);
});

test("a second view of a screen is not blank", async () => {
  assert.equal(await browser.evaluate(`(() => {
    const parser = show(4, 20, "text \\x1b[31mred"), second = new TerminalView();
    second.fontSize = 16;
    document.body.append(second);
    second.attach(parser);
    second.draw();
    parser.process("\\r\\nmore");
    view.draw();
    second.draw();
    const isSame = digest() === digest(second);
    second.remove();
    return isSame;
  })()`), true);
});

test("themes", async () => {
  assert.deepEqual(await browser.evaluate(`(() => {
    show(1, 4, "\\x1b[?25l\\x1b[41m \\x1b[m");
    view.theme = { background: "#ffffff", palette: ["#000000", "#123456"] };
    view.draw();
    const seen = [pixel(0, 0), pixel(0, 1)];
    view.theme = Theme.dark;
    view.draw();
    return [...seen, pixel(0, 1)];
  })()`), [[0x12, 0x34, 0x56], [255, 255, 255], BACKGROUND]);
});

test("the selection has its own background", async () => {
  const select = "view.select({ row: 0, col: 1 }, { row: 1, col: 1 }); view.draw();";
  assert.deepEqual(await shown(2, 3, "   \r\n   ", `${select} [pixel(0, 0), pixel(0, 1), pixel(1, 0), pixel(1, 1)]`),
    [BACKGROUND, SELECTION, SELECTION, BACKGROUND]);
});

test("a canvas has whole device pixels, also after the window has moved to another monitor", async () => {
  const sizes = `(() => {
    const canvas = canvasOf(), width = canvas.getBoundingClientRect().width * devicePixelRatio;
    return [canvas.width / 80 % 1, canvas.height / 24 % 1, width - canvas.width];
  })()`;
  await shown(24, 80, "text", "0");
  const heights = [];
  const setScale = (deviceScaleFactor) => browser.send("Emulation.setDeviceMetricsOverride",
    { width: 1000, height: 800, deviceScaleFactor, mobile: false });
  for (const scale of [1, 2, 1.5]) {
    await setScale(scale);
    // Chromium sends no event for an emulated change.
    await browser.evaluate("view.draw()");
    const [width, height, rest] = await browser.evaluate(sizes);
    assert.deepEqual([width, height, Math.abs(rest) < 0.6], [0, 0, true]);
    heights.push(await browser.evaluate("canvasOf().height / 24"));
  }
  assert.deepEqual(heights.map((height) => Math.round(height / heights[0] * 10) / 10), [1, 2, 1.5]);
  await setScale(1);
});

test("the height of a line is a multiple of the font's", async () => {
  const [plain, double, name] = await browser.evaluate(`(() => {
    show(2, 10, "text");
    const before = view.cellHeight;
    view.lineHeight = 2;
    view.redraw();
    const found = [before, view.cellHeight, view.getAttribute("line-height")];
    view.removeAttribute("line-height");
    view.redraw();
    return found;
  })()`);
  assert.deepEqual([double, name], [2 * plain, "2"]);
});

test("the largest font with which the screen fits", async () => {
  const [width, height, larger] = await browser.evaluate(`(async () => {
    show(24, 80, "text");
    view.style.cssText = "width: 700px; height: 400px";
    view.fit = "both";
    const nextSize = () => new Promise((done) => view.addEventListener("cellsizechange", done, { once: true }));
    await nextSize();
    const { width, height } = canvasOf().getBoundingClientRect(), cell = view.cellHeight;
    view.style.cssText = "width: 1400px; height: 800px";
    await nextSize();
    const larger = view.cellHeight / cell;
    view.fit = "none";
    view.style.cssText = "";
    return [width, height, larger];
  })()`);
  assert.ok(width <= 700 && height <= 400 && (width > 600 || height > 370), `${width}x${height}`);
  assert.ok(larger > 1.7 && larger < 2.4, `${larger}`);
  const [size, cellWidth, cellHeight] = await browser.evaluate("[view.sizeThatFits(800, 400), view.cellWidth, view.cellHeight]");
  assert.deepEqual(size, { rows: Math.floor(400 / cellHeight), cols: Math.floor(800 / cellWidth) });
});

test("no errors were reported", () => {
  assert.deepEqual(browser.messages, []);
});
