import assert from "node:assert/strict";
import { test } from "node:test";
import { RowStore } from "../row_store.js";
import { row } from "./lib/records.mjs";

/** A stand-in for a screen whose rows have the given texts. */
function screenOf(...texts) {
  const rows = texts.map((text) => row(...text));
  return { rowBytes: (at, out) => out.set(rows[at]), size: { rows: texts.length, cols: texts[0].length } };
}

function changedRows(store, screen) {
  return [...store.read(screen, screen.size)];
}

test("rows that differ from those read before have changed", () => {
  const store = new RowStore();
  assert.deepEqual(changedRows(store, screenOf("ab", "cd")), [0, 1]);
  assert.deepEqual(changedRows(store, screenOf("ab", "cd")), []);
  assert.deepEqual(changedRows(store, screenOf("ab", "cx")), [1]);
  assert.deepEqual([store.rowAt(1), store.rowBefore(1)], [row("c", "x"), row("c", "d")]);
  store.clear();
  assert.deepEqual(changedRows(store, screenOf("ab", "cx")), [0, 1]);
});

test("all rows have changed after a resize, also one of the rows or the columns alone", () => {
  for (const texts of [["ab", "cd", "  "], ["ab"], ["abc", "cd "], ["a", "c"]]) {
    const store = new RowStore();
    store.read(screenOf("ab", "cd"), { rows: 2, cols: 2 });
    assert.deepEqual(changedRows(store, screenOf(...texts)), texts.map((_, at) => at), texts.join());
    assert.deepEqual(store.rowAt(0), row(...texts[0]));
    assert.equal(store.cols, texts[0].length);
  }
});
