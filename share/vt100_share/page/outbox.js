// What a viewer types, in messages that the server's limits allow.

// The server accepts 64 KiB a second and 256 KiB at once, and 200 messages a second.
const CHUNK = 4096;
const RATE = 40, BURST = 131072; // bytes per millisecond, and bytes
const GAP = 15; // milliseconds

// How many bytes of messages the server lets a viewer send before it has taken them, and how many of each are no text.
const MAX_UNTAKEN = 32768, KIND_LEN = 1;

/**
 * Sends bytes by `send`, at once if it can: what is added within a short time goes into one message. If the program does not
 * read, the rest waits until the server says that it has taken what was sent.
 */
export class Outbox {
  #send;
  #bytes = new Uint8Array(0);
  #timer = null;
  #allowed = BURST;
  #last = -Infinity;
  /** How many bytes of messages were sent, and taken, modulo 2**32. */
  #sent = 0;
  #taken = 0;

  constructor(send) {
    this.#send = send;
  }

  add(bytes) {
    const all = new Uint8Array(this.#bytes.length + bytes.length);
    all.set(this.#bytes);
    all.set(bytes, this.#bytes.length);
    this.#bytes = all;
    if (this.#timer === null) this.#schedule();
  }

  /** Drops what has not been sent, for a new connection. */
  clear() {
    this.#bytes = new Uint8Array(0);
    this.#sent = this.#taken = 0;
  }

  /** Takes the number of bytes that the server has taken. */
  taken(count) {
    this.#taken = count;
    if (this.#timer === null) this.#schedule();
  }

  /** Returns how much may be sent until the server takes more. */
  get #room() {
    return MAX_UNTAKEN - ((this.#sent - this.#taken) >>> 0) - KIND_LEN;
  }

  /** Sends what may be sent now, and waits to send the rest. */
  #schedule() {
    const delay = this.#last + GAP - performance.now();
    if (delay <= 0) this.#flush();
    else this.#wait(delay);
  }

  #wait(delay) {
    this.#timer = setTimeout(() => {
      this.#timer = null;
      this.#flush();
    }, delay);
  }

  #flush() {
    const now = performance.now(), chunk = this.#bytes.subarray(0, Math.min(CHUNK, Math.max(this.#room, 0)));
    if (chunk.length === 0) return;
    this.#allowed = Math.min(BURST, this.#allowed + (now - this.#last) * RATE);
    this.#last = now;
    if (chunk.length <= this.#allowed) {
      this.#allowed -= chunk.length;
      this.#bytes = this.#bytes.subarray(chunk.length);
      this.#sent = (this.#sent + KIND_LEN + chunk.length) >>> 0;
      this.#send(chunk);
    }
    if (this.#bytes.length > 0) this.#wait(GAP);
  }
}
