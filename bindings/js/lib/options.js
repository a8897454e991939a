// The options of redraws and diffs.

import { booleanOf, optionsAmong } from "./errors.js";

/** The one-column characters that a diff may repeat with REP: none, printable ASCII characters, or all. */
export const Repeat = Object.freeze({ NEVER: 0, ASCII: 4, ANY: 2 });

const SCROLL = 1, PORTABLE = 8;
const REPEATS = Object.values(Repeat);

/** Returns the bits that the library expects for the options of a redraw. */
export function redrawOptions(options = {}) {
  const { portable = false } = optionsAmong(["portable"], options);
  return booleanOf("portable", portable) ? PORTABLE : 0;
}

/** Returns the bits that the library expects for the options of a diff. */
export function diffOptions(options = {}) {
  const { scroll = false, repeat = Repeat.NEVER, portable = false } = optionsAmong(["scroll", "repeat", "portable"], options);
  if (typeof repeat !== "number") throw new TypeError(`repeat must be a value of Repeat, not ${typeof repeat}`);
  if (!REPEATS.some((value) => value === repeat)) throw new RangeError(`repeat must be a value of Repeat, not ${repeat}`);
  return (booleanOf("scroll", scroll) ? SCROLL : 0) | repeat | redrawOptions({ portable });
}
