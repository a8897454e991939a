// Callbacks.

import assert from "node:assert/strict";
import { test } from "node:test";
import { hasStatus, vt100 } from "./module.js";

const { Parser } = vt100;
const text = (bytes) => new TextDecoder().decode(bytes);

const NAMES = [
  "audibleBell",
  "visualBell",
  "resize",
  "setWindowIconName",
  "setWindowTitle",
  "copyToClipboard",
  "pasteFromClipboard",
  "unhandledChar",
  "unhandledControl",
  "unhandledEscape",
  "unhandledCsi",
  "unhandledOsc",
];

/** Returns what is known about a row that scrolled off. */
function rowValues({ text, wrapped, alternateScreen }) {
  return [text, wrapped, alternateScreen];
}

/** Returns a parser, and the list to which it adds its events, with bytes as strings. */
function recorder(rows = 3, cols = 10, options = {}) {
  const events = [];
  const plain = (value) => {
    if (Array.isArray(value)) return value.map(plain);
    return value instanceof Uint8Array ? text(value) : value;
  };
  const callbacks = Object.fromEntries(
    NAMES.map((name) => [name, (_, ...values) => events.push([name, ...values.map(plain)])]),
  );
  callbacks.onScroll = (rows) => events.push(...rows.map((row) => ["onScroll", ...rowValues(row)]));
  return [new Parser(rows, cols, { callbacks, ...options }), events];
}

test("each kind of event", () => {
  const [parser, events] = recorder();
  parser.process("\x07\x1bg\x1b[8;3;5t\x1b]0;both\x07\x1b]1;icon\x07\x1b]2;tit\u00e9\x07");
  parser.process("\x1b]52;c;aGk=\x07\x1b]52;p;?\x07\u0085\x05\x1b#8\x1b[1;2:3!z\x1b]777;a;b\x07");
  assert.deepEqual(events, [
    ["audibleBell"],
    ["visualBell"],
    ["resize", 3, 5],
    ["setWindowIconName", "both"],
    ["setWindowTitle", "both"],
    ["setWindowIconName", "icon"],
    ["setWindowTitle", "tit\u00e9"],
    ["copyToClipboard", "c", "aGk="],
    ["pasteFromClipboard", "p"],
    ["unhandledChar", "\u0085"],
    ["unhandledControl", 5],
    ["unhandledEscape", 35, null, 56],
    ["unhandledCsi", 33, null, [[1], [2, 3]], "z"],
    ["unhandledOsc", ["777", "a", "b"]],
  ]);
});

test("rows that scroll off", () => {
  const [parser, events] = recorder(2, 10);
  parser.process("one\r\ntwo\r\nthree\r\n0123456789ab\r\n");
  assert.deepEqual(events, [
    ["onScroll", "one", false, false],
    ["onScroll", "two", false, false],
    ["onScroll", "three", false, false],
    ["onScroll", "0123456789", true, false],
  ]);
  events.length = 0;
  parser.process("\x1b[?1049h\x1b[Hx\r\n\r\n");
  assert.deepEqual(events, [["onScroll", "x", false, true]]);
});

test("no row is lost however many there are", () => {
  for (const [line, expected] of [
    ["a line of text\r\n", 20000 - 23],
    ["\x1b[24S", 24 * 20000],
    ["\x1b[m" + "x".repeat(80 * 4), 4 * 20000 - 24],
  ]) {
    let count = 0;
    const callbacks = { onScroll: (rows) => (count += rows.length), eventsLost: () => assert.fail("lost") };
    const parser = new Parser(24, 80, { callbacks });
    parser.process(line.repeat(20000));
    assert.equal(count, expected);
    parser.free();
  }
});

test("a resize reports rows unless a callback resizes", () => {
  const [parser, events] = recorder(3, 10);
  parser.process("a\r\nb\r\nc");
  parser.setSize(1, 10);
  assert.deepEqual(events, [["onScroll", "a", false, false], ["onScroll", "b", false, false]]);
  const heard = [];
  const callbacks = { resize: (screen, rows, cols) => screen.setSize(rows, cols), onScroll: (rows) => heard.push(...rows) };
  const resized = new Parser(3, 10, { callbacks });
  resized.process("a\r\nb\r\nc\x1b[8;1;20t\x1b[Hd");
  assert.deepEqual([resized.size, heard, resized.contents()], [{ rows: 1, cols: 20 }, [], "d"]);
});

test("a callback sees the screen before the next byte, and may use it", () => {
  const seen = [];
  const callbacks = {
    setWindowTitle(screen) {
      const copy = screen.save();
      // More than the room that all calls share.
      const large = new Parser(1, 65535);
      large.process("x".repeat(70000));
      seen.push(screen.contents(), large.contents().length, this === callbacks);
      for (const it of [copy, large]) it.free();
    },
  };
  const parser = new Parser(24, 80, { callbacks });
  parser.process("ab\x1b]2;t\x07cd" + "e".repeat(100));
  assert.deepEqual(seen, ["ab", 70000 - 65535, true]);
  assert.equal(parser.contents(), "abcd" + "e".repeat(100));
});

test("a callback must not call process of its parser", () => {
  let error;
  const callbacks = {
    audibleBell(screen) {
      try {
        screen.process("x");
      } catch (caught) {
        error = caught;
      }
    },
  };
  const parser = new Parser(3, 10, { callbacks });
  parser.process("a\x07b");
  assert.match(String(error), /process was called by a callback/);
  assert.equal(parser.contents(), "ab");
});

test("an exception of a callback leaves process", () => {
  const callbacks = {
    audibleBell() {
      throw new Error("mine");
    },
  };
  const parser = new Parser(3, 10, { callbacks });
  assert.throws(() => parser.process("a\x07b"), /mine/);
  parser.process("c");
  assert.equal(parser.contents(), "ac");
});

test("lost events are reported", () => {
  let count = 0, lost = 0;
  const callbacks = { onScroll: (rows) => (count += rows.length), eventsLost: () => lost++ };
  // Rows whose cells have a color: a row takes about 2,000 bytes of the log, whose limit is lowered.
  const parser = new Parser(100, 50, { callbacks });
  assert.equal(parser._instance.library.vt100_set_event_limit(parser._at, 100_000n), 0);
  parser.process("\x1b[44m\x1b[J\x1b[100H");
  parser.setSize(1, 50);
  assert.ok(lost === 1 && count > 30 && count < 60, `${lost} ${count}`);
  [count, lost] = [0, 0];
  parser.process("b\r\nc");
  assert.deepEqual([count, lost], [1, 0]);
});

/** Returns the rows that onScroll gets, one array of texts for each call, and with `more` callbacks. */
function callsFor(parserOf, more = {}) {
  const calls = [];
  const parser = parserOf({ ...more, onScroll: (rows) => calls.push(rows.map(({ text }) => text)) });
  return { parser, calls };
}

test("rows are reported once for each call of process", () => {
  const lines = (from, to) => Array.from({ length: to - from }, (_, k) => `line ${from + k}`);
  const textOfLines = lines(0, 4000).join("\r\n");
  for (const data of [textOfLines, new TextEncoder().encode(textOfLines)]) {
    const { parser, calls } = callsFor((callbacks) => new Parser(24, 80, { callbacks }));
    parser.process(data);
    assert.deepEqual(calls, [lines(0, 3976)]);
    parser.process("\r\nx");
    assert.deepEqual(calls.slice(1), [["line 3976"]]);
    parser.process("y");
    assert.equal(calls.length, 2);
  }
});

test("after many rows, they are reported although process has not ended", () => {
  const { parser, calls } = callsFor((callbacks) => new Parser(1, 3, { callbacks }));
  parser.process("a\n\r".repeat(25_000));
  assert.ok(calls.length === 3 && calls.every((rows) => rows.length <= 20_000), String(calls.map((rows) => rows.length)));
  assert.deepEqual(calls.flat(), Array(25_000).fill("a"));
});

test("rows are reported in order with other events", () => {
  const order = [];
  const callbacks = {
    audibleBell: (screen) => order.push(["bell", screen.contents()]),
    onScroll: (rows) => order.push(rows.map(({ text }) => text)),
  };
  const parser = new Parser(1, 5, { callbacks });
  parser.process("a\r\nb\r\nc\x07\x07\r\nd\r\ne");
  assert.deepEqual(order, [["a", "b"], ["bell", "c"], ["bell", "c"], ["c", "d"]]);
  order.length = 0;
  const resized = new Parser(1, 5, { callbacks: { ...callbacks, resize: (screen) => order.push(screen.contents()) } });
  resized.process("a\r\n\x1b[31mb\x1b[8;2;9tc\x1b[m\r\nd\x1b[8;3;9t");
  resized.process("\x1b[");
  resized.process("8;4;9te\x1b[8;5;9t");
  assert.deepEqual(order, [["a"], "b", ["bc"], "d", "d", "de"]);
});

/** Returns random output: lines, colors, titles, bells, movements, and characters of several bytes. */
function randomOutput(random) {
  const parts = [
    "text of a line\r\n", "\n", "\r\n\r\n", "x".repeat(25), "\u65e5\u672c\u8a9e", "e\u0301", "\x1b[31m", "\x1b[1;38;5;9;48:2::1:2:3m", "\x1b[m",
    "\x1b[2S", "\x1b[7b", "\x1b]2;title\x07", "\x07", "\x1b[H", "\x1b[3J", "\x1b[2J", "\t", "\b", "\x1b[?1049h", "\x1b[?1049l", "\x7f",
    "\x1bc", "\x1b[5", "\x18",
  ];
  return Array.from({ length: 300 }, () => parts[Math.floor(random() * parts.length)]).join("");
}

test("rows are the same whatever else is reported, and however input is cut", () => {
  let seed = 1, count = 0;
  const random = () => (seed = (seed * 48271) % 2147483647) / 2147483647;
  const others = [{}, { setWindowTitle() {} }, { audibleBell() {}, unhandledCsi() {}, unhandledChar() {} }];
  for (let round = 0; round < 40; round++) {
    const output = new TextEncoder().encode(randomOutput(random)), scrollback = round % 3;
    const found = others.map((more) => {
      const rows = [];
      const callbacks = { ...more, onScroll: (some) => rows.push(...some.map(rowValues)) };
      const parser = new Parser(4, 20, { scrollback, callbacks });
      for (let at = 0, end; at < output.length; at = end) {
        end = at + 1 + Math.floor(random() * 200);
        parser.process(output.subarray(at, end));
      }
      const state = parser.stateFormatted();
      parser.free();
      return { rows, state };
    });
    count += found[0].rows.length;
    assert.deepEqual(found[1], found[0]);
    assert.deepEqual(found[2], found[0]);
  }
  assert.ok(count > 1000, `${count} rows`);
});

test("no row is lost, however many a few bytes scroll off", () => {
  // The cursor moves to the second row, from which 65,536 characters fill 820 rows, of which 23 remain.
  const scrolls = ["\x1b[H\n\x1b[999S", 3000, 3000 * 24], repeats = ["\x1b[H\nx\x1b[65535b", 40, 40 * (820 - 23)];
  for (const [sequence, times, expected] of [scrolls, repeats]) {
    let count = 0, lost = 0;
    const callbacks = { onScroll: (rows) => (count += rows.length), eventsLost: () => lost++ };
    const parser = new Parser(24, 80, { callbacks });
    parser.process(`\x1b[44m\x1b[2J${sequence.repeat(times)}`);
    assert.deepEqual([count, lost], [expected, 0], sequence);
    parser.free();
  }
});

test("no row is lost when much scrollback is erased between other rows", () => {
  const callbacks = { onScroll: (rows) => (count += rows.length), eventsLost: () => lost++ };
  let count = 0, lost = 0;
  // The sequence may also have begun before, and contain the newlines.
  const newlines = "\n".repeat(5000);
  for (const parts of [[`${newlines}\x1b[3J${newlines}`], ["\x1b[3", `${newlines}J${newlines}`]]) {
    const parser = new Parser(24, 80, { scrollback: 21_000, callbacks });
    // More than 21,024 rows of 80 characters, all of which take more than 64 MiB in the log.
    parser.process("x\x1b[65535b".repeat(26));
    count = 0;
    for (const part of parts) parser.process(part);
    assert.deepEqual([count, lost], [26_000, 0]);
    parser.free();
  }
});

test("what onScroll throws leaves process, and later rows are reported", () => {
  let isFailing = true;
  const heard = [];
  const callbacks = {
    onScroll(rows) {
      if (isFailing) throw new Error("mine");
      heard.push(...rows.map(({ text }) => text));
    },
  };
  const parser = new Parser(1, 5, { callbacks });
  assert.throws(() => parser.process("a\r\nb"), /mine/);
  isFailing = false;
  parser.process("\r\nc");
  assert.deepEqual(heard, ["b"]);
});

test("onScroll may change the screen, and must not call process", () => {
  const errors = [];
  const callbacks = {
    onScroll() {
      parser.setSize(2, 7);
      parser.setScrollback(0);
      try {
        parser.process("x");
      } catch (error) {
        errors.push(error.message);
      }
    },
  };
  const parser = new Parser(1, 5, { callbacks });
  parser.process("a\r\nb\r\nc");
  // A row that has scrolled off comes back as a blank one.
  assert.deepEqual([errors.length, parser.size, parser.contents()], [1, { rows: 2, cols: 7 }, "\nc"]);
  assert.match(errors[0], /process was called by a callback/);
});

test("the text of a row is decoded when it is read, together with those of other rows", () => {
  const { decode } = TextDecoder.prototype;
  let count = 0, rows;
  const parser = new Parser(1, 400, { callbacks: { onScroll: (scrolled) => (rows = scrolled) } });
  TextDecoder.prototype.decode = function (...values) {
    count++;
    return decode.apply(this, values);
  };
  try {
    parser.process("one\r\ntwo\r\nthree\r\n");
    assert.equal(count, 0);
    assert.deepEqual(rows.map(({ text }) => text), ["one", "two", "three"]);
    assert.equal(count, 1);
  } finally {
    TextDecoder.prototype.decode = decode;
  }
});

test("the text of a row outlives the parser and later input", () => {
  const texts = ["plain", "gr\u00fc\u00dfe", "\u65e5\u672c", "\u{1f600} e\u0301", "", "x".repeat(300), "\u00e9".repeat(200)];
  for (const some of [texts, texts.filter((text) => !/[^ -~]/.test(text))]) {
    const kept = [];
    const parser = new Parser(1, 400, { callbacks: { onScroll: (rows) => kept.push(...rows) } });
    parser.process(`${some.join("\r\n")}\r\n`);
    parser.process("over\r\n".repeat(3));
    parser.free();
    assert.deepEqual(kept.map(({ text }) => text), [...some, "over", "over", "over"]);
    assert.deepEqual(JSON.parse(JSON.stringify(kept[0])), { text: "plain", wrapped: false, alternateScreen: false });
  }
});

test("a callback that uses the memory of the instance does not disturb the input", () => {
  const read = [];
  const callbacks = {
    audibleBell(screen) {
      const other = new Parser(2, 20);
      other.process("OVERWRITTEN".repeat(500));
      read.push(screen.contents(), other.rows()[0], screen.cell(0, 0).text);
    },
  };
  for (const data of ["ab\x07cd\x07ef", new TextEncoder().encode("ab\x07cd\x07ef")]) {
    const parser = new Parser(3, 10, { callbacks });
    parser.process(data);
    assert.equal(parser.contents(), "abcdef");
  }
  assert.deepEqual(read.filter((_, k) => k % 3 === 0), ["ab", "abcd", "ab", "abcd"]);
});

test("titles are kept, with and without callbacks", () => {
  const heard = [];
  const callbacks = { setWindowTitle: (screen) => heard.push(screen.title), audibleBell() {} };
  for (const options of [{}, { callbacks }, { callbacks: { onScroll() {} } }]) {
    const parser = new Parser(3, 10, options);
    assert.deepEqual([parser.title, parser.iconName], ["", ""]);
    parser.process("\x1b]0;both\x07");
    assert.deepEqual([parser.title, parser.iconName], ["both", "both"]);
    parser.process("\x1b]2;first\x07\x1b]1;icon\x07a\x1b]2;tit\u00e9\x07b");
    assert.deepEqual([parser.title, parser.iconName, parser.contents()], ["tit\u00e9", "icon", "ab"]);
    parser.process(Uint8Array.of(0x1b, 0x5d, 0x32, 0x3b, 0xff, 0x41, 0x07));
    assert.equal(parser.title, "\ufffdA");
  }
  assert.deepEqual(heard, ["both", "first", "tit\u00e9", "\ufffdA"]);
});

test("a title may be lost after a long icon name, and later ones are not", () => {
  for (const options of [{}, { callbacks: { audibleBell() {} } }]) {
    const parser = new Parser(3, 10, options);
    parser.process(`\x1b]2;first\x07\x1b]0;${"x".repeat(2 ** 21)}\x07`);
    assert.deepEqual([parser.title, parser.iconName.length], ["first", 2 ** 21]);
    parser.process("\x1b]2;second\x07");
    assert.equal(parser.title, "second");
  }
});

test("a parser whose callback frees it throws", () => {
  const parser = new Parser(3, 10, { callbacks: { audibleBell: (screen) => screen.free() } });
  assert.throws(() => parser.process("\x07x"), hasStatus(6));
});
