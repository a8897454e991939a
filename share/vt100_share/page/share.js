// The page of a viewer. The library, compiled to WebAssembly, reads the updates, and its viewer draws the screen.

import { load } from "./vt100.js";
import "./view/view.js";
import { Connection } from "./connection.js";
import { Keyboard } from "./keyboard.js";
import { MouseInput } from "./mouse_input.js";
import { SharedScreen } from "./screen.js";
import { TouchScrolling } from "./touch.js";

const find = (id) => document.getElementById(id);
const view = document.querySelector("vt100-view");

/** Returns a number with a noun. */
function counted(number, noun) {
  return `${number} ${noun}${number === 1 ? "" : "s"}`;
}

/** Shows the state of the connection: see `Connection`. */
function setStatus(kind, text) {
  find("status").textContent = text;
  document.body.dataset.status = kind;
}

/** What the connection reports: see `Connection`. */
class Page {
  #screen;
  #mayWrite = false;

  constructor(screen) {
    this.#screen = screen;
    view.addEventListener("scrollbackchange", ({ detail }) => this.#showScrollback(detail.scrollback));
  }

  /** The keyboard, which is there once the connection is. */
  keyboard = null;

  /** Returns the state of the screen, or null if this viewer may not type. */
  get state() {
    return this.#mayWrite ? this.#screen.state : null;
  }

  redraw(rows, cols, bytes) {
    this.#screen.redraw(rows, cols, bytes);
  }

  update(bytes) {
    this.#screen.update(bytes);
  }

  scrolled(number, count, cols, bytes) {
    this.#screen.scrolled(number, count, cols, bytes);
  }

  alternate(isAlternate) {
    this.#screen.isAlternate = isAlternate;
  }

  title(text) {
    document.title = text || "Shared terminal";
  }

  viewers(count, writers) {
    find("viewers").textContent = `${counted(count, "viewer")}, ${counted(writers, "writer")}`;
  }

  begin() {
    this.#screen.forgetRows();
  }

  mayWrite(isAllowed) {
    this.#mayWrite = isAllowed;
    document.body.dataset.mayWrite = isAllowed;
    this.#showScrollback(this.#screen.state?.scrollback ?? 0);
    if (isAllowed && document.activeElement === view) this.keyboard.focus();
  }

  status(kind, text) {
    setStatus(kind, text);
  }

  #showScrollback(scrollback) {
    find("scrollback").textContent = scrollback > 0 ? `${counted(scrollback, "row")} back` : "";
    view.mouseReporting = this.#mayWrite && scrollback === 0;
  }
}

/** Sends what the reader types, and scrolls. */
function listen(screen, page, connection) {
  const state = () => page.state;
  const send = (input) => {
    screen.scrollToEnd();
    connection.type(input);
  };
  let pointerType = "mouse";
  view.addEventListener("pointerdown", (event) => ({ pointerType } = event), { capture: true });
  const keyboard = new Keyboard({ view, area: find("input"), keys: find("keys"), state, send });
  // A tap goes to a program that requests the mouse, without the touch keyboard: there is a button for it.
  const focus = () => pointerType === "touch" || keyboard.focus();
  const mouse = new MouseInput(view, { state, send: (bytes) => connection.type(bytes), focus });
  view.addEventListener("focus", () => page.state !== null && keyboard.focus());
  new TouchScrolling(view, (rows, point) => mouse.sweep(point, rows) || view.scrollRows(-rows));
  page.keyboard = keyboard;
}

/** Leaves room for the touch keyboard, which in some browsers covers a part of the page. */
function watchViewport() {
  const viewport = globalThis.visualViewport;
  const adapt = () => {
    if (viewport.scale < 1.01) document.documentElement.style.setProperty("--height", `${viewport.height}px`);
  };
  viewport?.addEventListener("resize", adapt);
}

async function begin() {
  const screen = new SharedScreen(await load(), view), page = new Page(screen);
  const url = new URL("viewer", location.href.replace(/^http/, "ws"));
  url.hash = "";
  view.focus();
  const connection = new Connection(url, location.hash.slice(1), page);
  listen(screen, page, connection);
  addEventListener("online", () => connection.wake());
  document.addEventListener("visibilitychange", () => document.visibilityState === "visible" && connection.wake());
  globalThis.shared = screen;
}

// Another token: the page begins anew.
addEventListener("hashchange", () => location.reload());
watchViewport();

try {
  await begin();
} catch (error) {
  setStatus("old", `Failed: ${error.message}`);
}
document.body.dataset.isReady = "true";
