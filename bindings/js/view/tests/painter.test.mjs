import assert from "node:assert/strict";
import { test } from "node:test";
import { BOLD, CONTINUATION, UNDERLINE, WIDE } from "../cells.js";
import { Painter } from "../painter.js";
import { row } from "./lib/records.mjs";

const RECORDED = ["fillRect", "fillText", "rect", "clip", "save", "restore"];

/**
 * Returns a stand-in for the 2D context of a canvas, which records what was drawn: `calls` has the recorded calls. Its
 * characters are `advance` wide, and reach below the baseline by `tail`, which may be more than the font's descent.
 */
function recordingContext({ advance, ascent, descent, tail, hasSpacing = true }) {
  const calls = [];
  const context = {
    calls, canvas: { width: 0, height: 0 }, fillStyle: "", font: "", globalAlpha: 1,
    measureText: (text) => ({
      width: advance * text.length, fontBoundingBoxAscent: ascent, fontBoundingBoxDescent: descent,
      actualBoundingBoxAscent: ascent - 1, actualBoundingBoxDescent: tail ?? descent - 1,
    }),
    beginPath() {},
  };
  if (hasSpacing) context.letterSpacing = "0px";
  for (const name of RECORDED) {
    context[name] = (...parts) => calls.push({ name, parts, style: context.fillStyle, font: context.font });
  }
  return context;
}

// Cells of 10 by 20 pixels, since 9.6, 14.5 and 4.7 are rounded; the baseline is 15 pixels below the top.
function painted(records, { selected = null, cursor = null, hasSpacing = true, tail } = {}) {
  const context = recordingContext({ advance: 9.6, ascent: 14.5, descent: 4.7, tail, hasSpacing });
  const painter = new Painter(context);
  painter.setFont("mono", 16, 1);
  painter.resize(3, records.length / 40);
  painter.paintRow(1, records, selected, cursor);
  const called = (name) => context.calls.filter((call) => call.name === name).map(({ parts }) => parts);
  return { context, painter, called };
}

test("cells and canvases have whole pixels", () => {
  const { painter, context } = painted(row("a", "b"));
  assert.deepEqual([painter.cellWidth, painter.cellHeight], [10, 20]);
  assert.deepEqual(context.canvas, { width: 20, height: 60 });
  assert.equal(Math.round(parseFloat(context.letterSpacing) * 100), 40);
});

test("a cell is high enough for characters that reach below the font's descent", () => {
  assert.equal(painted(row("_"), { tail: 5.5 }).painter.cellHeight, 21);
});

test("ASCII is drawn in runs, or cell by cell by browsers that cannot space letters", () => {
  const records = row("a", "b", "", { text: "c", flags: BOLD });
  assert.deepEqual(painted(records).called("fillText"), [["ab ", 0, 35], ["c", 30, 35]]);
  assert.deepEqual(painted(records, { hasSpacing: false }).called("fillText").filter(([text]) => text !== " "),
    [["a", 0, 35], ["b", 10, 35], ["c", 30, 35]]);
  assert.match(painted(records).context.calls.at(-1).font, /^bold 16px mono$/);
});

test("other characters are squeezed into their cells, and clipped to their row", () => {
  const { called, context } = painted(row("a", "é", { text: "日", flags: WIDE }, { flags: CONTINUATION }));
  assert.deepEqual(called("fillText"), [["a", 0, 35], ["é", 10, 35, 10], ["日", 20, 35, 20]]);
  assert.deepEqual(called("rect"), [[0, 20, 40, 20]]);
  const order = context.calls.map(({ name }) => name).filter((name) => !name.startsWith("fill"));
  assert.deepEqual(order, ["save", "rect", "clip", "restore"]);
});

test("a row is cleared, and nothing outside of it is filled", () => {
  const { called } = painted(row({ bgcolor: 1 }, { flags: UNDERLINE }, "█"), { cursor: { col: 2, shape: "bar" } });
  const areas = called("fillRect");
  assert.deepEqual(areas[0], [0, 20, 30, 20]);
  for (const [x, y, width, height] of areas) {
    assert.ok(x >= 0 && y >= 20 && x + width <= 30 && y + height <= 40, `${[x, y, width, height]}`);
  }
});

test("a cursor on either half of a wide character covers both", () => {
  for (const col of [1, 2]) {
    const { called } = painted(row("a", { text: "日", flags: WIDE }, { flags: CONTINUATION }), { cursor: { col, shape: "block" } });
    assert.deepEqual(called("fillRect").at(-1), [10, 20, 20, 20]);
    assert.deepEqual(called("fillText").at(-1).slice(0, 3), ["日", 10, 35]);
  }
});
