// Tests the connection of the page of vt100-share with a WebSocket that the test controls.

import assert from "node:assert/strict";
import { Connection } from "../vt100_share/page/connection.js";

const sockets = [], timers = [], calls = [];
let chance = 0.5;
Math.random = () => chance;
globalThis.setTimeout = (run, delay) => timers.push({ run, delay });
globalThis.WebSocket = class extends EventTarget {
  static OPEN = 1;
  readyState = 0;
  sent = [];

  constructor(url) {
    super();
    this.url = url;
    sockets.push(this);
  }

  send(data) {
    this.sent.push(Buffer.from(data).toString("latin1"));
  }

  open() {
    this.readyState = 1;
    this.dispatchEvent(new Event("open"));
  }

  receive(text) {
    const data = Uint8Array.from(Buffer.from(text, "latin1")).buffer;
    this.dispatchEvent(Object.assign(new Event("message"), { data }));
  }

  close(code, reason = "") {
    this.readyState = 3;
    this.dispatchEvent(Object.assign(new Event("close"), { code, reason }));
  }
};

const text = (bytes) => Buffer.from(bytes).toString("latin1");
const connection = new Connection("ws://host/viewer", "token", {
  redraw: (rows, cols, bytes) => calls.push(`redraw ${rows} ${cols} ${text(bytes)}`),
  update: (bytes) => calls.push(`update ${bytes.length}`),
  begin: () => calls.push("begin"),
  alternate: (isAlternate) => calls.push(`alternate ${isAlternate}`),
  scrolled: (number, count, cols, bytes) => calls.push(`scrolled ${number} ${count} ${cols} ${text(bytes)}`),
  viewers: (count, writers) => calls.push(`viewers ${count} ${writers}`),
  title: (title) => calls.push(`title ${title}`),
  mayWrite: (isAllowed) => calls.push(`write ${isAllowed}`),
  status: (kind, status) => calls.push(`status ${kind} ${status}`),
});

// The token is the first message, and updates are acknowledged after 4096 bytes.
const [first] = sockets;
connection.type("lost");
first.open();
first.receive("W1");
first.receive("F\0\x18\0\x50abc");
first.receive("Ta title");
first.receive("D" + "x".repeat(4000));
assert.deepEqual(first.sent, ["ttoken"]);
first.receive("H\xff\xff\xff\xff\0\x02\x01\x02" + "y".repeat(92));
connection.type("é");
assert.deepEqual(first.sent, ["ttoken", "a\0\0\x10\x0e", "i\xc3\xa9"]); // 8 + 4001 + 101 bytes
assert.deepEqual(calls.splice(0),
  ["begin", "alternate false", "status current ", "write true", "redraw 24 80 abc", "title a title", "update 4000",
    `scrolled 4294967295 2 258 ${"y".repeat(92)}`]);

// Later, the server may say that the viewer may not type, and whether the program displays the alternate screen.
first.receive("W0");
first.receive("A1");
first.receive("A0");
assert.deepEqual(calls.splice(0), ["write false", "alternate true", "alternate false"]);
first.receive("V\0\0\x01\0\0\0\0\x02");
first.receive("S1");
first.receive("S0");
assert.deepEqual(calls.splice(0),
  ["viewers 256 2", "status old The program is out of reach: this screen may be old.", "status current "]);

// Of input, no more is sent than the server lets wait.
first.sent.splice(0);
connection.type("z".repeat(40000));
while (timers.length > 0) timers.shift().run();
const length = () => first.sent.join("").length;
assert.equal(length(), 32768 - "i\xc3\xa9".length);
first.receive("I\0\0\x03\xeb");
while (timers.length > 0) timers.shift().run();
assert.equal(length(), 32768 + 1003 - "i\xc3\xa9".length);
first.receive("I\0\0\x80\0");
while (timers.length > 0) timers.shift().run();
assert.equal(first.sent.map((message) => message.slice(1)).join(""), "z".repeat(40000));

// A lost connection is replaced, later and later, at random; the count of bytes begins anew.
first.close(1006);
assert.match(calls.pop(), /^status old Not connected/);
timers.pop().run();
for (const [random, delay] of [[0.5, 500], [0, 500], [0.75, 2500], [0.5, 4000], [0.5, 8000], [0.5, 10000], [0, 5000]]) {
  chance = random;
  sockets.at(-1).close(1013);
  const timer = timers.pop();
  assert.deepEqual([timer.delay, timers], [delay, []]);
  timer.run();
}
sockets.splice(2, sockets.length - 3); // the first two and the last one stay
sockets[2].open();
sockets[2].receive("W0");
sockets[2].receive("F\0\x01\0\x01" + "y".repeat(4091));
assert.deepEqual(sockets[2].sent, ["ttoken", "a\0\0\x10\0"]);

// A lost connection is replaced at once when the reader is back, but only once.
sockets[2].close(1006);
connection.wake();
assert.equal(sockets.length, 4);
timers.pop().run();
assert.equal(sockets.length, 4);
sockets[3].open();
sockets[3].receive("W0");
connection.wake();
assert.deepEqual(sockets[3].sent, ["ttoken", "a\0\0\0\0"]);

// A viewer that was cut off stays away, and so does one whose program has ended.
calls.splice(0);
sockets[3].close(1008, "the token is wrong");
assert.deepEqual(calls.splice(0), ["status old The server has ended the connection: the token is wrong."]);
assert.equal(timers.length, 0);
new Connection("ws://host/viewer", "token", { status: (kind, status) => calls.push([kind, status]) });
sockets[4].open();
sockets[4].receive("X7");
sockets[4].close(1000);
assert.deepEqual([calls, timers], [[["ended", "The program has ended with status 7."]], []]);
