// Uses the interface, to check its types.
import { Cast, CastPlayer, TerminalView, Theme } from "../view.js";
import { load } from "../../vt100.js";

export async function use(text: string): Promise<number> {
  const vt100 = await load();
  const parser = new vt100.Parser(24, 80, { scrollback: 100 });
  const view: TerminalView = document.createElement("vt100-view");
  view.attach(parser);
  view.fit = "both";
  view.theme = new Theme({ background: "#000", palette: ["#111"] });
  view.theme = { background: "#fff", foreground: "#222", palette: ["#111"] };
  parser.toSvg({ theme: view.theme });
  view.addEventListener("scrollbackchange", ({ detail }) => detail.scrollback + detail.scrollbackLen);
  view.addEventListener("selectionchange", ({ detail }) => detail.range?.start.row);
  view.addEventListener("pointerdown", ({ pointerType }) => pointerType);
  const range = view.selectedRange;
  if (range !== null) view.select(range.start, { row: range.end.row, col: 0 });
  const player = new CastPlayer(vt100, new Cast(text), { idleTimeLimit: 2, keyframes: { limit: 8 } });
  player.currentTime = 2;
  player.markers.forEach(({ time, label }) => label.length + time);
  view.attach(player.parser);
  const element = document.createElement("vt100-player");
  element.vt100 = vt100;
  element.open(player.cast);
  // @ts-expect-error: there is no such value
  view.fit = "height";
  // @ts-expect-error: a recording is not a number
  element.open(1);
  return view.draw() + element.duration;
}
