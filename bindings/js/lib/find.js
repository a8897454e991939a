// Searching for text on a screen.

/** Returns the global form of the pattern that matches `text`, which is a string or a regular expression. */
export function patternOf(text) {
  if (text instanceof RegExp) return new RegExp(text, `${text.flags.replace(/[gy]/g, "")}g`);
  if (typeof text !== "string") throw new TypeError(`the text to find must be a string or a RegExp, not ${typeof text}`);
  if (text === "") throw new RangeError("the text to find is empty");
  return new RegExp(text.replace(/[\\^$.*+?()[\]{}|/]/g, "\\$&"), "g");
}

/** Returns the text of all rows as `contents` has it, and the index in it at which each row begins. */
function joined(rows, wrapped) {
  const starts = [];
  let text = "";
  rows.forEach((row, at) => {
    starts.push(text.length);
    text += row;
    const continues = wrapped[at] && Boolean(rows[at + 1]);
    if (!continues) text += "\n";
  });
  return { text: text.replace(/\n+$/, ""), starts };
}

/** Returns the column of each UTF-16 unit of a row's text. */
function columnsOf(cells) {
  return cells.flatMap(({ text, wideContinuation }, col) =>
    wideContinuation ? [] : Array(Math.max(text.length, 1)).fill(col));
}

/** Returns the index of the last number that is at most `index`, in ascending numbers. */
function lastAtMost(numbers, index) {
  let low = 0, high = numbers.length;
  while (high - low > 1) {
    const middle = (low + high) >> 1;
    if (numbers[middle] <= index) low = middle;
    else high = middle;
  }
  return low;
}

/**
 * Returns the positions at which matches of a global pattern begin, given the text of each row and whether it is wrapped.
 * `cellsOf` returns the cells of a row.
 */
export function placesOf(pattern, rows, wrapped, cellsOf) {
  const { text, starts } = joined(rows, wrapped);
  const matches = [...text.matchAll(pattern)].filter(([found]) => found !== "");
  return matches.map(({ index }) => {
    const row = lastAtMost(starts, index), cells = cellsOf(row);
    // A newline is in the column after the text.
    return { row, col: columnsOf(cells)[index - starts[row]] ?? cells.length };
  });
}
