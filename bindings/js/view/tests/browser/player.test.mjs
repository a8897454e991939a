// The element that plays recordings.

import assert from "node:assert/strict";
import { beforeEach, test } from "node:test";
import { openPage } from "./setup.mjs";

const browser = await openPage("tests/browser/blank.html");

/** Returns the text of a recording of version 2, of a terminal of 20 columns and 3 rows. */
function castOf(events, more = {}) {
  const header = { version: 2, width: 20, height: 3, ...more };
  return [header, ...events].map((line) => `${JSON.stringify(line)}\n`).join("");
}

const THEME = { fg: "#ff0000", bg: "#00ff00", palette: Array(8).fill("#123456").join(":") };
const CASTS = {
  "/fast.cast": castOf([[0, "o", "FAST"]]),
  "/slow.cast": castOf([[0, "o", "SLOW"]], { theme: THEME }),
  "/ten.cast": castOf([...Array.from({ length: 11 }, (_, k) => [k, "o", `${k} `]), [2.5, "m", "early"], [7.5, "m", "late"]]
    .sort(([left], [right]) => left - right)),
};

// Downloads end when the test says so, and what follows from that happens before the next task.
await browser.evaluate(`
  const casts = ${JSON.stringify(CASTS)};
  globalThis.downloads = {};
  globalThis.fetch = ({ pathname }, { signal }) => new Promise((done, fail) => {
    const ok = pathname in casts;
    downloads[pathname] = () => done({ ok, status: ok ? 200 : 404, statusText: "", text: async () => casts[pathname] });
    signal.addEventListener("abort", () => fail(signal.reason));
  });
  globalThis.finish = async (name) => {
    while (!downloads[name]) await new Promise((done) => setTimeout(done, 5));
    downloads[name]();
    delete downloads[name];
  };
  globalThis.find = (selector) => player.shadowRoot.querySelector(selector);
  view.remove();
  0`);

/** Makes a new player, and returns the value of a program in the page. */
function withPlayer(program) {
  return browser.evaluate(`(async () => {
    globalThis.player?.player?.free();
    globalThis.player?.remove();
    globalThis.player = document.createElement("vt100-player");
    player.vt100 = vt100;
    document.body.append(player);
    const load = async (name) => {
      const loaded = new Promise((done) => player.addEventListener("loadeddata", done, { once: true }));
      player.src = name;
      await finish(name);
      await loaded;
    };
    const open = (name) => player.open(casts[name]);
    ${program}
  })()`);
}

beforeEach(() => browser.evaluate("downloads = {}; 0"));

test("a rate that was set before loading is kept, and shown", async () => {
  assert.deepEqual(await withPlayer(`
    player.playbackRate = 1.5;
    await load("/fast.cast");
    return [player.playbackRate, player.player.playbackRate, find("select").value];`), [1.5, 1.5, "1.5"]);
  assert.deepEqual(await withPlayer(`
    const names = [];
    for (const rate of [0, -1, NaN, "2"]) try { player.playbackRate = rate; } catch (error) { names.push(error.name); }
    return [...names, player.playbackRate, find("select").value];`),
  ["RangeError", "RangeError", "RangeError", "TypeError", 1, "1"]);
});

test("a recording that arrives late does not replace a later one", async () => {
  assert.deepEqual(await withPlayer(`
    const loads = [], errors = [];
    player.addEventListener("loadeddata", () => loads.push(player.src));
    player.addEventListener("error", ({ message }) => errors.push(message));
    player.src = "/slow.cast";
    const slow = downloads["/slow.cast"];
    await load("/fast.cast");
    slow();
    await new Promise((done) => setTimeout(done));
    player.seek(0);
    return [loads, errors, player.player.parser.contents()];`), [["/fast.cast"], [], "FAST"]);
  assert.equal(await withPlayer(`
    const name = player.load("/slow.cast").catch((error) => error.name);
    open("/fast.cast");
    return name;`), "AbortError");
  // The download is complete, but what was downloaded has not been read.
  assert.deepEqual(await withPlayer(`
    const name = player.load("/slow.cast").catch((error) => error.name);
    downloads["/slow.cast"]();
    open("/fast.cast");
    return [await name, player.player.cast.theme];`), ["AbortError", null]);
});

test("the theme of a recording ends with it, and that of the page stays", async () => {
  const colors = (program) => withPlayer(`
    const seen = [];
    const open2 = (name) => { open(name); seen.push(player.view.theme.foreground); };
    ${program}
    return seen;`);
  assert.deepEqual(await colors(`open2("/fast.cast"); open2("/slow.cast"); open2("/fast.cast");`),
    ["#d4d4d4", "#ff0000", "#d4d4d4"]);
  assert.deepEqual(await colors(`player.view.theme = Theme.light; open2("/slow.cast"); open2("/fast.cast");`),
    ["#ff0000", "#202020"]);
  assert.deepEqual(await colors(`open2("/slow.cast"); player.view.theme = Theme.light; open2("/fast.cast");`),
    ["#ff0000", "#202020"]);
});

test("without a source, nothing is downloaded, and the recording stays", async () => {
  assert.deepEqual(await withPlayer(`
    const errors = [];
    player.addEventListener("error", ({ message }) => errors.push(message));
    await load("/fast.cast");
    const { player: before } = player;
    player.removeAttribute("src");
    player.src = "/slow.cast";
    player.src = null;
    await new Promise((done) => setTimeout(done));
    return [errors, player.src, player.player === before, player.hasAttribute("src"), Object.keys(downloads)];`),
    [[], null, true, false, ["/slow.cast"]]);
});

test("what cannot be played is reported", async () => {
  const message = (program) => withPlayer(`
    const message = new Promise((done) => player.addEventListener("error", (event) => done(event.message), { once: true }));
    ${program}
    return [await message, find("output").textContent];`);
  const missing = "/none.cast: 404 ";
  assert.deepEqual(await message(`player.src = "/none.cast"; await finish("/none.cast");`), [missing, missing]);
  const thrown = (program) => withPlayer(`try { ${program} } catch (error) { return error.name + ": " + error.message; }`);
  assert.match(await thrown(`player.open(1)`), /^TypeError: a recording is a string, not number/);
  assert.match(await thrown(`player.vt100 = null; open("/fast.cast")`), /^TypeError: the property vt100 must be set/);
  assert.match(await thrown(`player.setAttribute("poster", "x"); open("/fast.cast")`), /^RangeError: poster must be a time/);
});

test("a poster is displayed until the recording is played or another time is sought", async () => {
  const shown = (program) => withPlayer(`
    player.setAttribute("poster", "0:05");
    open("/ten.cast");
    const seen = [player.view.screen.contents(), player.currentTime, player.view.screen === player.player.parser];
    ${program}
    return [...seen, player.view.screen === player.player.parser, player.view.screen.contents()];`);
  assert.deepEqual(await shown(""), ["0 1 2 3 4 5 ", 0, false, false, "0 1 2 3 4 5 "]);
  assert.deepEqual(await shown("player.play(); player.pause();"), ["0 1 2 3 4 5 ", 0, false, true, "0 "]);
  assert.deepEqual(await shown("player.seek(2);"), ["0 1 2 3 4 5 ", 0, false, true, "0 1 2 "]);
});

test("a loop begins again at the end", async () => {
  assert.deepEqual(await withPlayer(`
    player.loop = true;
    open("/ten.cast");
    player.playbackRate = 1000;
    const ended = new Promise((done) => player.addEventListener("ended", done, { once: true }));
    player.play();
    await ended;
    const seen = [player.paused, player.ended, player.hasAttribute("loop")];
    player.loop = false;
    await new Promise((done) => player.addEventListener("ended", done, { once: true }));
    return [...seen, player.paused, player.ended];`), [false, false, true, true, true]);
});

test("a loop of a recording without duration ends", async () => {
  assert.deepEqual(await withPlayer(`
    player.loop = true;
    player.setAttribute("autoplay", "");
    open("/fast.cast");
    return [player.paused, player.ended, player.player.parser.contents()];`), [true, true, "FAST"]);
});

test("pauses are shortened to the limit of the attribute", async () => {
  assert.deepEqual(await withPlayer(`
    open("/ten.cast");
    const whole = player.duration;
    player.setAttribute("idle-time-limit", "0.25");
    open("/ten.cast");
    return [whole, player.duration];`), [10, 3]);
});

test("a player that is removed from the page pauses", async () => {
  assert.deepEqual(await withPlayer(`
    player.setAttribute("autoplay", "");
    open("/ten.cast");
    const before = player.paused;
    player.remove();
    return [before, player.paused];`), [false, true]);
});

test("keys", async () => {
  await withPlayer(`open("/ten.cast"); player.view.focus();`);
  const SHIFT = 8, CTRL = 2, time = () => browser.evaluate("player.currentTime");
  const timeAfter = async (key, modifiers = 0) => {
    await browser.press(key, { modifiers, text: key.length === 1 ? key : undefined });
    return time();
  };
  const seen = {};
  for (const key of ["7", "ArrowLeft", "ArrowRight", "[", "[", "]", "]", "]", "0", ".", ".", ","]) {
    (seen[key] ??= []).push(await timeAfter(key));
  }
  assert.deepEqual(seen, {
    7: [7], ArrowLeft: [2], ArrowRight: [7], "[": [2.5, 0], "]": [2.5, 7.5, 10], 0: [0], ".": [1, 2], ",": [1],
  });
  assert.deepEqual([await timeAfter("ArrowRight", SHIFT), await timeAfter("ArrowLeft", SHIFT)], [2, 1]);
  assert.equal(await timeAfter("5", CTRL), 1);
  // Shortly after a marker, the one before is meant.
  await browser.evaluate("player.seek(7.6)");
  assert.equal(await timeAfter("["), 2.5);
  await browser.evaluate("player.seek(1)");
  assert.equal(await timeAfter("x"), 1);
  const isHidden = async () => {
    await timeAfter("?", SHIFT);
    return browser.evaluate(`find(".help").hidden`);
  };
  assert.deepEqual([await isHidden(), await isHidden()], [false, true]);
  await timeAfter(" ");
  assert.equal(await browser.evaluate("player.paused"), false);
  await timeAfter(" ");
  assert.equal(await browser.evaluate("player.paused"), true);
});

test("fullscreen shows the largest font that fits", async () => {
  await withPlayer(`open("/ten.cast"); player.view.focus();`);
  const cell = () => browser.evaluate("(player.view.draw(), player.view.cellHeight)");
  const before = await cell();
  await browser.press("f");
  await browser.until(`document.fullscreenElement === player && player.view.fit === "both"`);
  const [bottom, height] = await browser.evaluate(`(player.view.draw(),
    [find(".controls").getBoundingClientRect().bottom, innerHeight])`);
  assert.ok(bottom <= height && bottom > height - 40, `${bottom} of ${height}`);
  assert.ok(await cell() > 2 * before);
  await browser.evaluate("player.toggleFullscreen()");
  await browser.until(`document.fullscreenElement === null && player.view.fit === "none"`);
  assert.equal(await cell(), before);
});

test("changes are announced only while the player is paused", async () => {
  assert.deepEqual(await withPlayer(`
    open("/ten.cast");
    const seen = [player.view.announces];
    player.play();
    seen.push(player.view.announces);
    player.pause();
    return [...seen, player.view.announces];`), [true, false, true]);
});

test("the slider tells the time to screen readers", async () => {
  assert.equal(await withPlayer(`
    open("/ten.cast");
    player.seek(7.25);
    return find("input").getAttribute("aria-valuetext");`), "0:07 of 0:10");
});

test("a page that requires trusted types and has a strict policy plays recordings", async () => {
  const { origin } = new URL(await browser.evaluate("location.href"));
  await browser.open(`${origin}/view/tests/browser/policy.html`);
  await browser.evaluate(`player.src = "/view/session.cast"; 0`);
  await browser.until("player.player !== null");
  assert.ok(await browser.evaluate("player.seek(5), player.player.parser.contents().length") > 500);
});

test("no errors were reported", () => {
  assert.deepEqual(browser.messages, []);
});
