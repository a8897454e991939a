// Compiled, and not run: the declarations accept what they should, and reject the rest.
import { keyText, pasteText } from "../keys.js";
import { mouseBytes } from "../mouse.js";
import { CursorStyle, Repeat, Screen, load } from "../vt100.js";
import type { Cell, Color, Mirror, Parser, Vt100 } from "../vt100.js";

const vt100: Vt100 = await load(new URL("vt100.wasm", "https://example.org/"));
await load(fetch("vt100.wasm"));
const parser: Parser = new vt100.Parser(24, 80, {
  scrollback: 10,
  callbacks: {
    setWindowTitle(screen, title) {
      screen.contents();
      title.subarray(1);
    },
    onScroll: (rows) => rows.map(({ text, wrapped, alternateScreen }) => text.repeat(Number(wrapped || alternateScreen))),
    unhandledCsi: (_screen, _first, _second, params) => params[0]?.[0]?.toFixed(),
  },
});
parser.process("x");
parser.process(new Uint8Array(3));
const cell: Cell | undefined = parser.cell(0, 0);
const color: Color = parser.fgcolor;
const saved: Screen = parser.save();
const diff: string = parser.contentsDiffWith(saved, { scroll: true, repeat: Repeat.ANY });
const state: string = parser.stateFormattedWith({ portable: true }) + parser.stateDiffWith(saved, { portable: true });
const isBar: boolean = parser.cursorStyle === CursorStyle.STEADY_VERTICAL_BAR;
const isScreen: boolean = saved instanceof Screen && saved instanceof vt100.Screen;
for (const [row, records] of parser.dirty()) new vt100.Cell(records, 40 * row);
const last: Cell | undefined = parser.allCells()[23]?.[79];
const whole: Uint8Array = parser.allBytes(new Uint8Array(40 * 24 * 80));
const above: Cell | undefined = parser.history.at(-1)?.cells[0];
const old: string[] = saved.history.rows(-20).concat([...parser.history].map(({ wrapped }) => `${wrapped}`));
const mirror: Mirror = new vt100.Mirror();
const viewer: bigint = mirror.join();
const { text, size } = mirror.update(viewer);
const key = { key: "a", ctrlKey: false, altKey: false, shiftKey: false, metaKey: false, isComposing: false };
const typed: string = (keyText(key, parser) ?? "") + pasteText("text", parser.state);
const press = { type: "mousedown", button: 0, buttons: 1, shiftKey: false, altKey: false, ctrlKey: false };
const report: Uint8Array | null = mouseBytes(press, parser.cursor, parser.state);
saved[Symbol.dispose]();
console.log(above?.text, old.length, keyText(key, { applicationCursor: true, applicationKeypad: true }));
console.log(cell?.text, last?.text, whole.length, color, diff, state, isBar, isScreen, text, size?.rows, typed, report);

// @ts-expect-error
parser.process(7);
// @ts-expect-error
new vt100.Parser(24, 80, { callbacks: { onScroll: (text: string) => text } });
// @ts-expect-error
parser.history.at("0");
// @ts-expect-error
mirror.update(1);
// @ts-expect-error
new vt100.Parser("24");
// @ts-expect-error
new vt100.Screen();
// @ts-expect-error
parser.contentsDiffWith(saved, { repeat: 3 });
// @ts-expect-error
parser.stateDiffWith(saved, { portable: 1 });
// @ts-expect-error
cell.text;
// @ts-expect-error
saved.process("x");
