// The WebSocket of a viewer: it reads the server's messages, acknowledges them, and connects again when the connection is
// lost. `_messages.py` describes the messages.

import { Outbox } from "./outbox.js";

const ACKNOWLEDGE_AFTER = 4096;
const FIRST_DELAY = 250, LONGEST_DELAY = 10000;
const CUT_OFF = 1008;

const decoder = new TextDecoder(), encoder = new TextEncoder();

/** Returns a message of the given kind. */
function message(kind, bytes) {
  const all = new Uint8Array(1 + bytes.length);
  all[0] = kind.charCodeAt(0);
  all.set(bytes, 1);
  return all;
}

/**
 * The connection to the server. `display` has the methods begin(), for a new connection, redraw(rows, cols, bytes),
 * update(bytes), scrolled(number, count, cols, bytes), alternate(isAlternate), title(text), viewers(count, writers),
 * mayWrite(isAllowed) and status(kind, text). The kinds are "current", "old" if the screen may differ from that of the
 * program, and "ended"; the text says why, and is empty while it is current.
 */
export class Connection {
  #url;
  #token;
  #display;
  #socket = null;
  #read = 0;
  #acknowledged = 0;
  #delay = FIRST_DELAY;
  #isWaiting = false;
  #hasBegun = false;
  #hasEnded = false;
  #outbox = new Outbox((bytes) => this.#send("i", bytes));

  constructor(url, token, display) {
    this.#url = url;
    this.#token = token;
    this.#display = display;
    this.#connect();
  }

  /** Sends what was typed, a string or bytes. While there is no connection, it is lost. */
  type(input) {
    if (this.#isOpen) this.#outbox.add(typeof input === "string" ? encoder.encode(input) : input);
  }

  /** Connects at once if the connection is lost. Called when the network or the reader is back. */
  wake() {
    if (this.#isWaiting) this.#connect();
    else this.#acknowledge(); // which shows whether the connection still exists
  }

  #connect() {
    this.#isWaiting = false;
    const socket = new WebSocket(this.#url);
    socket.binaryType = "arraybuffer";
    this.#socket = socket;
    this.#read = this.#acknowledged = 0;
    this.#hasBegun = false;
    socket.addEventListener("open", () => this.#send("t", encoder.encode(this.#token)));
    socket.addEventListener("message", ({ data }) => this.#take(data));
    socket.addEventListener("close", ({ code, reason }) => this.#closed(code, reason));
  }

  get #isOpen() {
    return this.#socket.readyState === WebSocket.OPEN;
  }

  #send(kind, bytes) {
    if (this.#isOpen) this.#socket.send(message(kind, bytes));
  }

  #take(data) {
    const bytes = new Uint8Array(data), view = new DataView(data), display = this.#display;
    const text = () => decoder.decode(bytes.subarray(1));
    switch (String.fromCharCode(bytes[0])) {
      case "F": display.redraw(view.getUint16(1), view.getUint16(3), bytes.subarray(5)); return this.#count(bytes);
      case "D": display.update(bytes.subarray(1)); return this.#count(bytes);
      case "H": this.#scrolled(bytes, view); return this.#count(bytes);
      case "W": return this.#setMayWrite(text() === "1");
      case "A": return display.alternate(text() === "1");
      case "I": return this.#outbox.taken(view.getUint32(1));
      case "T": return display.title(text());
      case "V": return display.viewers(view.getUint32(1), view.getUint32(5));
      case "S": return this.#setStale(text() === "1");
      case "X": return this.#end(text());
      default: return undefined;
    }
  }

  /** Counts a message that the screen has read, and acknowledges it together with others. */
  #count(bytes) {
    this.#read += bytes.length;
    if (this.#read - this.#acknowledged >= ACKNOWLEDGE_AFTER) this.#acknowledge();
  }

  #acknowledge() {
    const count = new Uint8Array(4);
    new DataView(count.buffer).setUint32(0, this.#read >>> 0);
    this.#send("a", count);
    this.#acknowledged = this.#read;
  }

  #scrolled(bytes, view) {
    this.#display.scrolled(view.getUint32(1), view.getUint16(5), view.getUint16(7), bytes.subarray(9));
  }

  /** Takes whether this viewer may type. The first such message begins the connection. */
  #setMayWrite(mayWrite) {
    if (!this.#hasBegun) {
      this.#hasBegun = true;
      this.#delay = FIRST_DELAY;
      this.#display.begin();
      this.#display.alternate(false);
      this.#setStale(false);
    }
    this.#display.mayWrite(mayWrite);
  }

  #setStale(isStale) {
    if (isStale) this.#display.status("old", "The program is out of reach: this screen may be old.");
    else this.#display.status("current", "");
  }

  #end(status) {
    this.#hasEnded = true;
    this.#display.status("ended", `The program has ended with status ${status}.`);
  }

  #closed(code, reason) {
    this.#outbox.clear();
    if (this.#hasEnded) return;
    if (code === CUT_OFF) {
      this.#display.status("old", `The server has ended the connection: ${reason}.`);
      return;
    }
    this.#display.status("old", "Not connected: this screen may be old. Connecting again…");
    this.#isWaiting = true;
    // At random, so that not all who have lost their connections at a time return at a time.
    setTimeout(() => this.#isWaiting && this.#connect(), this.#delay * (0.5 + Math.random()));
    this.#delay = Math.min(2 * this.#delay, LONGEST_DELAY);
  }
}
