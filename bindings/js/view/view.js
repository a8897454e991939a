// A viewer for the screens of vt100.js, and a player of recordings. view.d.ts describes the interface.
//
//     import { load } from "../vt100.js";
//     import "./view.js";
//     const { Parser } = await load(), parser = new Parser(24, 80);
//     const view = document.querySelector("vt100-view");
//     view.attach(parser);
//     parser.process("this text is \x1b[31mRED\x1b[m");
//     view.requestDraw();

import { CastPlayerElement } from "./player_element.js";
import { TerminalView } from "./terminal_view.js";

export { Cast } from "./cast.js";
export { CastPlayer } from "./cast_player.js";
export { CastPlayerElement, TerminalView };
export { Theme } from "./theme.js";

/** Defines an element, unless the page has it. Without a page, such as on a server, there are no elements. */
function define(name, element) {
  const { customElements } = globalThis;
  if (customElements?.get(name) === undefined) customElements?.define(name, element);
}

define("vt100-view", TerminalView);
define("vt100-player", CastPlayerElement);
