import assert from "node:assert/strict";
import { test } from "node:test";
import { BOLD, CONTINUATION, INVERSE, WIDE, hasEqualCells, rowText, runsOf, textAt } from "../cells.js";
import { Theme } from "../theme.js";
import { row } from "./lib/records.mjs";

const WIDE_CELL = { text: "日", flags: WIDE }, SECOND_HALF = { flags: CONTINUATION };

test("text of cells and rows", () => {
  const records = row("a", "", WIDE_CELL, SECOND_HALF, "e\u0301", "\ufeff", "", "");
  assert.equal(textAt(records, 0), "a");
  assert.equal(textAt(records, 1), "");
  assert.equal(textAt(records, 2), "日");
  assert.equal(textAt(records, 4), "e\u0301");
  assert.equal(textAt(records, 5), "\ufeff");
  assert.equal(rowText(records.subarray(0, 200)), "a 日e\u0301");
});

test("equal ranges of cells", () => {
  const left = row("a", "b", "c"), right = row("x", "b", { text: "c", fgcolor: 1 });
  assert.equal(hasEqualCells(left, right, 1, 2), true);
  assert.equal(hasEqualCells(left, right, 0, 2), false);
  assert.equal(hasEqualCells(left, right, 2, 3), false);
});

test("runs end where the attributes change, and at characters that are not ASCII", () => {
  const bold = (text) => ({ text, flags: BOLD });
  const runs = runsOf(row("a", "", "b", bold("c"), bold("d"), "é", { text: "f", bgcolor: 4 }, "g"));
  assert.deepEqual(runs.map(({ col, text }) => [col, text]), [[0, "a b"], [3, "cd"], [5, "é"], [6, "f"], [7, "g"]]);
  assert.deepEqual(runs.map(({ isSimple }) => isSimple), [true, true, false, true, true]);
});

test("a wide character is one run of two columns", () => {
  const runs = runsOf(row("a", WIDE_CELL, SECOND_HALF, "b"));
  assert.deepEqual(runs.map(({ col, width, text }) => [col, width, text]), [[0, 1, "a"], [1, 2, "日"], [3, 1, "b"]]);
});

test("a selection splits runs, and selects whole wide characters", () => {
  const runs = runsOf(row("a", "b", "c", "d"), [1, 3]);
  assert.deepEqual(runs.map(({ text, isSelected }) => [text, isSelected]), [["a", false], ["bc", true], ["d", false]]);
  for (const columns of [[0, 1], [1, 2]]) {
    assert.equal(runsOf(row(WIDE_CELL, SECOND_HALF), columns)[0].isSelected, true);
  }
  assert.equal(runsOf(row(WIDE_CELL, SECOND_HALF, "a"), [2, 3])[0].isSelected, false);
});

test("colors: the default ones, the palette, and RGB", () => {
  const theme = new Theme({ foreground: "#111111", background: "#eeeeee", palette: ["#000001", "#000002"] });
  const colors = (cell, isSelected = false) => Object.values(theme.colorsOf(row(cell), 0, isSelected));
  assert.deepEqual(colors({}), ["#111111", "#eeeeee"]);
  assert.deepEqual(colors({ fgcolor: 1, bgcolor: [1, 2, 3] }), ["#000002", "rgb(1,2,3)"]);
  assert.deepEqual(colors({ fgcolor: 1, flags: INVERSE }), ["#eeeeee", "#000002"]);
  assert.deepEqual(colors({ fgcolor: 1 }, true), ["#000002", theme.selection]);
  // The corners of xterm's cube, two colors in it, and the ends of its grays.
  const known = {
    16: "0,0,0", 21: "0,0,255", 67: "95,135,175", 208: "255,135,0", 231: "255,255,255", 232: "8,8,8", 255: "238,238,238",
  };
  for (const [index, parts] of Object.entries(known)) {
    assert.deepEqual(colors({ bgcolor: Number(index) })[1], `rgb(${parts})`);
  }
});

test("themes of recordings", () => {
  const palette = Array.from({ length: 8 }, (_, k) => `#00000${k}`);
  const theme = Theme.fromCast({ fg: "#abcdef", bg: "#012345", palette: palette.join(":") });
  assert.deepEqual([theme.foreground, theme.background, theme.palette[7], theme.palette[9]],
    ["#abcdef", "#012345", "#000007", "#000001"]);
  assert.equal(Theme.fromCast(null), Theme.dark);
  assert.equal(Theme.fromCast({ fg: "#abcdef" }, Theme.light), Theme.light);
});
