import assert from "node:assert/strict";
import { spawnSync } from "node:child_process";
import { readFile } from "node:fs/promises";
import { test } from "node:test";
import { Cast } from "../../cast.js";
import { SESSION, SESSION_OUTPUT, openPage } from "./setup.mjs";

const browser = await openPage("view.html");
const VTSHOW = process.env.VTSHOW ?? "";

/** Returns what vtshow prints after the output up to a time. The recording's size is 80x24 before there is output. */
async function vtshow(mode, time = Infinity) {
  const { events } = new Cast(await readFile(SESSION, "utf8"));
  const output = events.filter((event) => event.kind === "o" && event.time <= time).map(({ data }) => data);
  return spawnSync(VTSHOW, ["24", "80", mode], { input: output.join("") }).stdout.toString();
}

test("the page has loaded", async () => {
  assert.match(await browser.evaluate(`document.getElementById("status").textContent`), /^Version /);
});

test("playing ends with the rows that example_cast prints", async () => {
  await browser.evaluate("player.playbackRate = 1000; player.play()");
  await browser.evaluate(`new Promise((done) => player.ended ? done() : player.addEventListener("ended", done))`);
  const rows = (await readFile(SESSION_OUTPUT, "utf8")).split("\n").slice(7, 31);
  const found = await browser.evaluate("player.player.parser.rows()");
  assert.deepEqual(found.map((text) => text.trimEnd()), rows.map((text) => text.trimEnd()));
});

test("playing and seeking end with the screens that vtshow prints", { skip: VTSHOW === "" && "no vtshow" }, async () => {
  const [plain, formatted] = [await vtshow("plain"), await vtshow("formatted")];
  assert.ok(formatted.length > 500);
  await browser.evaluate("player.seek(Infinity)");
  assert.equal((await browser.evaluate("player.player.parser.contents()")).trimEnd(), plain.trimEnd());
  assert.equal(await browser.evaluate("player.player.parser.contentsFormatted()"), formatted);
  for (const event of [40, 3, 70, 5, 55]) {
    const { time } = new Cast(await readFile(SESSION, "utf8")).events[event];
    await browser.evaluate(`player.seek(player.player.cast.withIdleTimeLimit(2)[${event}].time)`);
    const found = await browser.evaluate("player.player.parser.contentsFormatted()");
    assert.equal(found, await vtshow("formatted", time), `event ${event}`);
  }
});

test("the button, the slider, the speed and the keys", async () => {
  const find = (selector) => `player.shadowRoot.querySelector(${JSON.stringify(selector)})`;
  await browser.evaluate("player.pause(); player.playbackRate = 1; player.seek(1)");
  // The time at least and at most since the button was pressed, beside the time of the recording.
  const [least, passed, most, isPaused] = await browser.evaluate(`new Promise((done) => {
    const before = performance.now();
    ${find("button")}.click();
    const after = performance.now();
    player.addEventListener("timeupdate", () => {
      const begun = performance.now(), { currentTime } = player, ended = performance.now();
      if (currentTime > 1.1) done([(begun - after) / 1000, currentTime - 1, (ended - before) / 1000, player.paused]);
    });
  })`);
  assert.ok(!isPaused && least - 0.001 <= passed && passed <= most + 0.001, `${passed}, not ${least} to ${most}`);
  await browser.evaluate(`${find("button")}.click()`);
  assert.equal(await browser.evaluate("player.paused"), true);
  await browser.evaluate(`${find("input")}.value = 4; ${find("input")}.dispatchEvent(new Event("input"))`);
  assert.equal(await browser.evaluate("player.currentTime"), 4);
  await browser.evaluate(`${find("select")}.value = "4"; ${find("select")}.dispatchEvent(new Event("change"))`);
  assert.equal(await browser.evaluate("player.playbackRate"), 4);
  await browser.evaluate("player.view.focus()");
  for (const key of ["ArrowRight", "ArrowLeft", "ArrowLeft"]) {
    await browser.send("Input.dispatchKeyEvent", { type: "rawKeyDown", key });
  }
  assert.equal(await browser.evaluate("player.currentTime"), 0);
  assert.match(await browser.evaluate(`${find("output")}.textContent`), /^0:00 \/ 0:1\d$/);
});

test("the playground shows the screen, its redraw and the diff", async () => {
  const fields = `["redraw", "diff", "fault"].map((id) => document.getElementById(id).textContent)`;
  const send = (typed) => browser.evaluate(`document.getElementById("typed").value = ${JSON.stringify(typed)};
    document.getElementById("send").click(); ${fields}`);
  await browser.evaluate("playground.reset()");
  const [redraw, diff, fault] = await send("\\e[31mred\\r\\n");
  assert.match(redraw, /\\e\[31mred/);
  assert.match(diff, /\\e\[31mred/);
  assert.equal(fault, "");
  const [, second] = await send("x");
  assert.ok(second.includes("x") && !second.includes("red"), second);
  assert.match((await send("\\q"))[2], /no such escape: \\q/);
});

test("in a narrow window, both screens are displayed as a whole", async () => {
  const setWidth = (width) =>
    browser.send("Emulation.setDeviceMetricsOverride", { width, height: 800, deviceScaleFactor: 1, mobile: false });
  await setWidth(320);
  const isWhole = `[player.view, document.getElementById("screen")].every((view) => {
    const { width } = view.shadowRoot.querySelector("canvas").getBoundingClientRect();
    return width > 150 && width <= view.clientWidth;
  })`;
  assert.ok(await browser.until(`${isWhole} && document.documentElement.scrollWidth <= 320`));
  await setWidth(1000);
});

test("without a recording, the page reports it, and still has the playground", async () => {
  await browser.open(await browser.evaluate(`location.origin + "/view/view.html?cast=none.cast"`));
  assert.match(await browser.evaluate(`document.getElementById("status").textContent`), /^Failed: none.cast: 404/);
  assert.equal(await browser.evaluate(`playground.send("x"); document.getElementById("diff-length").textContent`), "1");
});

test("a damaged recording is reported", async () => {
  const message = await browser.evaluate(`new Promise((done) => {
    const element = document.createElement("vt100-player");
    element.vt100 = player.vt100;
    element.addEventListener("error", (event) => done(event.message));
    element.src = "view.html";
  })`);
  assert.match(message, /^line 1: not JSON/);
});

test("no errors were reported", () => {
  assert.deepEqual(browser.messages, []);
});
