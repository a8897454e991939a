// Lines of text, in which no event can occur but those for rows, characters and control sequences.

const LINE_FEED = 0x0a, ESCAPE = 0x1b, SPACE = 0x20, DIGIT_0 = 0x30, SEMICOLON = 0x3b, BRACKET = 0x5b, SGR = 0x6d, DELETE = 0x7f;

/** BS, HT, LF and CR. */
const LINE_CONTROLS = [0x08, 0x09, LINE_FEED, 0x0d];

/** Returns the index of the end of an SGR sequence, or -1 if there is none at `at`, or if it is not complete. */
function endOfSgr(bytes, at) {
  if (bytes[at + 1] !== BRACKET) return -1;
  let end = at + 2;
  while (bytes[end] >= DIGIT_0 && bytes[end] <= SEMICOLON) end++;
  return bytes[end] === SGR ? end : -1;
}

/**
 * Returns the length of the longest prefix that has only text, SGR sequences, and the controls of lines, given that it begins
 * in ground state.
 */
export function linesLength(bytes) {
  for (let at = 0; at < bytes.length; at++) {
    const byte = bytes[at];
    if (byte >= SPACE ? byte !== DELETE : LINE_CONTROLS.includes(byte)) continue;
    const end = byte === ESCAPE ? endOfSgr(bytes, at) : -1;
    if (end < 0) return at;
    at = end;
  }
  return bytes.length;
}
