const NAMED = { e: "\x1b", n: "\n", r: "\r", t: "\t", a: "\x07", b: "\b", 0: "\0", "\\": "\\" };
const ESCAPE = /\\(?:x([0-9a-f]{2})|u([0-9a-f]{4})|u\{([0-9a-f]{1,6})\}|([\s\S]))/gi;

/**
 * Returns what typed text stands for: `\e` (ESC), `\n`, `\r`, `\t`, `\a` (BEL), `\b`, `\0`, `\\`, `\xHH`, `\uHHHH` and
 * `\u{H}`. Line breaks in the text are ignored. Throws a SyntaxError if there is another escape.
 */
export function unescape(typed) {
  return typed.replace(/\r?\n/g, "").replace(ESCAPE, (all, hex, code, point, name) => {
    const number = parseInt(hex ?? code ?? point ?? "", 16);
    if (number <= 0x10ffff) return String.fromCodePoint(number);
    const meant = NAMED[name];
    if (meant === undefined) throw new SyntaxError(`no such escape: ${all}`);
    return meant;
  });
}

/** Returns text as it would be typed, so that `unescape` returns the text. */
export function escape(text) {
  const names = Object.entries(NAMED).filter(([name]) => name !== "0");
  return text.replace(/[\\\x00-\x1f\x7f-\x9f\u200b-\u200f\u2028\u2029\ufeff]/g, (char) => {
    const found = names.find(([, meant]) => meant === char);
    return found ? `\\${found[0]}` : `\\u{${char.codePointAt(0).toString(16)}}`;
  });
}
