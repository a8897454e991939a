// Box drawing and block elements. What they must show is in their names in Unicode, of which Python has a table.

import assert from "node:assert/strict";
import { spawnSync } from "node:child_process";
import { test } from "node:test";
import { openPage } from "./setup.mjs";

const browser = await openPage("tests/browser/blank.html");

const PROGRAM = `import unicodedata
for code in range(0x2500, 0x25a0): print(chr(code), unicodedata.name(chr(code)), sep="\\t")`;
const env = { ...process.env, PYTHONIOENCODING: "utf8" };
const { stdout } = spawnSync("python3", ["-c", PROGRAM], { encoding: "utf8", env });
const NAMES = new Map(stdout.trim().split("\n").map((line) => line.split("\t")));

const LIGHT = 1, HEAVY = 2, DOUBLE = 3;
const WEIGHTS = { LIGHT, SINGLE: LIGHT, HEAVY, DOUBLE };
const SIDES = {
  UP: ["up"], RIGHT: ["right"], DOWN: ["down"], LEFT: ["left"], HORIZONTAL: ["left", "right"], VERTICAL: ["up", "down"],
};

/** Returns the weights of the arms that a name lists, such as "DOWN LIGHT AND RIGHT HEAVY", or null if it lists others. */
function armsOf(name) {
  if (!name.startsWith("BOX DRAWINGS ") || /DASH|DIAGONAL/.test(name)) return null;
  const parts = name.slice("BOX DRAWINGS ".length).replace("ARC ", "").split(" AND ").map((part) => part.split(" "));
  const weightIn = (words) => words.map((word) => WEIGHTS[word]).find(Boolean);
  const arms = { up: 0, right: 0, down: 0, left: 0 };
  for (const words of parts) {
    const weight = weightIn(words) ?? weightIn(parts[0]);
    for (const side of words.flatMap((word) => SIDES[word] ?? [])) arms[side] = weight;
  }
  return arms;
}

/** The characters that the view draws, with their arms. */
const BOXES = [...NAMES].map(([char, name]) => [char, name, armsOf(name)]).filter(([, , arms]) => arms !== null);

// The cells have odd numbers of pixels, so that they have a middle, and light lines of three pixels.
const size = await browser.evaluate(`[...Array(60).keys()].map((k) => 20 + k).find((size) => {
  view.fontSize = size;
  view.redraw();
  show(1, 1, "");
  const { cellWidth, cellHeight } = view;
  return cellWidth % 2 === 1 && cellHeight % 2 === 1 && Math.round(cellWidth / 9) === 3;
})`);
const LINE = 3;

/** Returns a character as rows of pixels, each from 0 (background) to 1 (text). */
function pixelsOf(char) {
  return browser.evaluate(`(() => {
    show(1, 2, "\\x1b[?25l${char}");
    const { cellWidth: width, cellHeight: height } = view;
    const { data } = canvasOf().getContext("2d").getImageData(0, 0, width, height);
    return Array.from({ length: height }, (_, y) =>
      Array.from({ length: width }, (_, x) => (data[4 * (y * width + x)] - 0x10) / (0xd4 - 0x10)));
  })()`);
}

const columnOf = (rows, x) => rows.map((row) => row[x]);

/** Returns the lengths of the lit stretches of a line of pixels. */
function stretches(line) {
  return line.map((level) => (level > 0.5 ? "#" : " ")).join("").split(/ +/).filter(Boolean).map(({ length }) => length);
}

const STRETCHES = { 0: [], [LIGHT]: [LINE], [HEAVY]: [2 * LINE], [DOUBLE]: [LINE, LINE] };

test("there are cells with a middle, and names", () => {
  assert.ok(size > 0);
  assert.deepEqual([NAMES.size, BOXES.length], [160, 113]);
  assert.deepEqual(armsOf("BOX DRAWINGS UP LIGHT AND RIGHT DOWN HEAVY"), { up: 1, right: 2, down: 2, left: 0 });
  assert.deepEqual(armsOf("BOX DRAWINGS VERTICAL DOUBLE AND LEFT SINGLE"), { up: 3, right: 0, down: 3, left: 1 });
});

test("each character has the arms of its name, with their weights, up to the edges", async () => {
  for (const [char, name, arms] of BOXES) {
    const rows = await pixelsOf(char);
    const edges = { up: rows[0], down: rows.at(-1), left: columnOf(rows, 0), right: columnOf(rows, rows[0].length - 1) };
    for (const [side, line] of Object.entries(edges)) {
      assert.deepEqual(stretches(line), STRETCHES[arms[side]], `${name}: ${side}`);
    }
  }
});

test("characters whose names are mirrored are mirrored", async () => {
  const withoutHeavy = BOXES.filter(([, , arms]) => !Object.values(arms).includes(HEAVY));
  const charOf = (wanted) => withoutHeavy.find(([, name, arms]) =>
    !/ARC/.test(name) && Object.entries(wanted).every(([side, weight]) => arms[side] === weight))?.[0];
  let count = 0;
  for (const [char, name, { up, right, down, left }] of withoutHeavy) {
    if (/ARC/.test(name)) continue;
    const rows = await pixelsOf(char);
    const across = charOf({ up, right: left, down, left: right }), over = charOf({ up: down, right, down: up, left });
    assert.deepEqual(await pixelsOf(across), rows.map((row) => row.toReversed()), name);
    assert.deepEqual(await pixelsOf(over), rows.toReversed(), name);
    count++;
  }
  assert.equal(count, 44);
});

/** Returns whether pixels around the middle, at a distance, are lit: three rows of three. */
async function middleOf(char, distance = LINE) {
  const rows = await pixelsOf(char), y = (rows.length - 1) / 2, x = (rows[0].length - 1) / 2;
  const offsets = [-distance, 0, distance];
  return offsets.map((down) => offsets.map((along) => (rows[y + down][x + along] > 0.5 ? "#" : ".")).join(""));
}

test("where lines meet, there is no notch", async () => {
  for (const char of "┌┐└┘├┤┬┴┼┏┓┗┛╋") assert.deepEqual(await middleOf(char, (LINE - 1) / 2), ["###", "###", "###"], char);
});

test("double lines meet in corners, and single lines end at them", async () => {
  const expected = {
    "═": ["###", "...", "###"], "║": ["#.#", "#.#", "#.#"], "╔": ["###", "#..", "#.#"], "╝": ["#.#", "..#", "###"],
    "╬": ["#.#", "...", "#.#"], "╦": ["###", "...", "#.#"], "╠": ["#.#", "#..", "#.#"], "╟": ["#.#", "#.#", "#.#"],
    "╓": ["...", "###", "#.#"], "╒": [".##", ".#.", ".##"], "╞": [".##", ".#.", ".##"], "╫": ["#.#", "###", "#.#"],
    "╪": ["###", ".#.", "###"], "╥": ["...", "###", "#.#"], "┼": [".#.", "###", ".#."], "└": [".#.", ".##", "..."],
  };
  for (const [char, middle] of Object.entries(expected)) assert.deepEqual(await middleOf(char), middle, char);
});

test("arcs are round: they leave out the corner", async () => {
  for (const [char, x, y] of [["╭", 1, 1], ["╮", -1, 1], ["╰", 1, -1], ["╯", -1, -1]]) {
    const rows = await pixelsOf(char), centerY = (rows.length - 1) / 2, centerX = (rows[0].length - 1) / 2;
    assert.ok(rows[centerY][centerX] < 0.5, char);
    assert.ok(rows[centerY + y * (centerY - 2)][centerX + x * (centerX - 2)] < 0.1, char);
    assert.ok(rows.flat().filter((level) => level > 0.5).length > LINE * (centerX + centerY) / 2, char);
  }
});

/** Returns which eighths of a cell are lit: the rows of its blocks of an eighth of its width and height. */
async function eighthsOf(char) {
  const rows = await pixelsOf(char), height = rows.length, width = rows[0].length;
  const middle = (k, length) => Math.floor((k + 0.5) * length / 8);
  return Array.from({ length: 8 }, (_, y) =>
    Array.from({ length: 8 }, (_, x) => (rows[middle(y, height)][middle(x, width)] > 0.5 ? "#" : ".")).join(""));
}

const EIGHTHS = {
  "ONE EIGHTH": 1, "ONE QUARTER": 2, "THREE EIGHTHS": 3, HALF: 4, "FIVE EIGHTHS": 5, "THREE QUARTERS": 6, "SEVEN EIGHTHS": 7,
};

/** Returns whether a part of a cell, in eighths, belongs to a block element. */
function isInBlock(name, x, y) {
  if (name === "FULL BLOCK") return true;
  if (name.startsWith("QUADRANT ")) {
    const half = `${y < 4 ? "UPPER" : "LOWER"} ${x < 4 ? "LEFT" : "RIGHT"}`;
    return name.slice("QUADRANT ".length).split(" AND ").includes(half);
  }
  const [, side, part] = /^(UPPER|LOWER|LEFT|RIGHT) (.*) BLOCK$/.exec(name), eighths = EIGHTHS[part];
  return { UPPER: y < eighths, LOWER: y >= 8 - eighths, LEFT: x < eighths, RIGHT: x >= 8 - eighths }[side];
}

test("each block element covers the part of its name", async () => {
  const blocks = [...NAMES].filter(([, name]) => /BLOCK|QUADRANT/.test(name));
  assert.equal(blocks.length, 29);
  for (const [char, name] of blocks) {
    const expected = Array.from({ length: 8 }, (_, y) =>
      Array.from({ length: 8 }, (_, x) => (isInBlock(name, x, y) ? "#" : ".")).join(""));
    assert.deepEqual(await eighthsOf(char), expected, name);
  }
});

test("shades are the parts of their names of the text's color", async () => {
  for (const [char, part] of [["░", 0.25], ["▒", 0.5], ["▓", 0.75]]) {
    assert.ok((await pixelsOf(char)).flat().every((level) => Math.abs(level - part) < 0.01), char);
  }
});

test("no errors were reported", () => {
  assert.deepEqual(browser.messages, []);
});
