// Tests what the page of vt100-share does with input: how it is divided into messages, and how text is read from an area.

import assert from "node:assert/strict";
import { Outbox } from "../vt100_share/page/outbox.js";
import { TextInput } from "../vt100_share/page/text_input.js";

// A clock that the test controls.
let now = 0, timers = [];
globalThis.performance = { now: () => now };
globalThis.setTimeout = (run, delay = 0) => timers.push({ run, at: now + delay });

/** Lets time pass. */
function pass(milliseconds) {
  const end = now + milliseconds;
  for (;;) {
    timers.sort((left, right) => left.at - right.at);
    if (timers.length === 0 || timers[0].at > end) break;
    const { run, at } = timers.shift();
    now = at;
    run();
  }
  now = end;
}

/** Returns an outbox, and the messages that it has sent: their times and contents. The server takes them at once. */
function outbox() {
  const sent = [];
  let total = 0;
  const box = new Outbox((bytes) => {
    sent.push({ at: now, bytes: Buffer.from(bytes) });
    total += 1 + bytes.length;
    setTimeout(() => box.taken(total));
  });
  const reconnect = () => {
    box.clear();
    total = 0;
  };
  return { box, sent, reconnect };
}

// The first message is sent at once, and what is added soon afterward is sent together.
{
  const { box, sent } = outbox();
  for (const text of ["a", "b", "c"]) box.add(Buffer.from(text));
  pass(5);
  box.add(Buffer.from("d"));
  pass(1000);
  box.add(Buffer.from("e"));
  assert.deepEqual(sent.map(({ bytes }) => bytes.toString()), ["a", "bcd", "e"]);
}

// A long text is sent in order, within the server's limits: 64 KiB and 200 messages a second on average, and at once 256 KiB
// and 600 messages, of at most 16 KiB.
{
  const { box, sent } = outbox(), text = Buffer.from(Array.from({ length: 600000 }, (_, k) => k % 251));
  pass(10000);
  const start = now;
  box.add(text);
  pass(30000);
  assert.deepEqual(Buffer.concat(sent.map(({ bytes }) => bytes)), text);
  let total = 0;
  sent.forEach(({ at, bytes }, count) => {
    total += bytes.length;
    assert.ok(bytes.length < 16384 && total <= 262144 + 65.536 * (at - start) && count < 600 + 0.2 * (at - start));
  });
}

// What was not sent can be dropped.
{
  const { box, sent, reconnect } = outbox();
  pass(1000);
  box.add(Buffer.alloc(10000));
  reconnect();
  pass(1000);
  assert.equal(sent.length, 1);
  box.add(Buffer.from("x"));
  assert.equal(sent.length, 2);
}

/** A text area, of which the cursor is always at the end. */
class Area extends EventTarget {
  value = "";
  setSelectionRange(start, end) {
    assert.deepEqual([start, end], [this.value.length, this.value.length]);
  }

  /** Replaces characters at the end, as a keyboard does. */
  edit(deleted, text) {
    this.value = this.value.slice(0, this.value.length - deleted) + text;
    this.dispatchEvent(new Event("input"));
  }

  compose(type) {
    this.dispatchEvent(new Event(`composition${type}`));
  }
}

/** Returns an area, and what is sent for it: for each input, the number of deleted characters and the text. */
function areaOf(isLive) {
  const area = new Area(), sent = [];
  new TextInput(area, isLive, (deleted, text) => sent.push([deleted, text]));
  return { area, sent };
}

// Text that is not composed is sent at once, and there is always something to delete.
{
  const { area, sent } = areaOf(false);
  for (let count = 0; count < 40; count++) area.edit(1, "");
  assert.deepEqual(sent, Array.from({ length: 40 }, () => [1, ""]));
  sent.length = 0;
  area.edit(0, "é");
  area.edit(0, "a longer text\n");
  assert.deepEqual(sent, [[0, "é"], [0, "a longer text\n"]]);
}

// An input method composes a text that is sent when it is complete.
{
  const { area, sent } = areaOf(false);
  area.compose("start");
  area.edit(0, "n");
  area.edit(0, "i");
  area.edit(2, "你");
  area.compose("end");
  pass(1);
  area.edit(0, "!");
  assert.deepEqual(sent, [[0, "你"], [0, "!"]]);
}

// A touch keyboard sends what it composes, and corrects it.
{
  const { area, sent } = areaOf(true);
  area.compose("start");
  area.edit(0, "t");
  area.edit(0, "eh");
  area.edit(2, "he");
  area.edit(0, "😀");
  area.edit(2, "😁");
  area.compose("end");
  pass(1);
  area.edit(0, " ");
  assert.deepEqual(sent, [[0, "t"], [0, "eh"], [2, "he"], [0, "😀"], [1, "😁"], [0, " "]]);
}
