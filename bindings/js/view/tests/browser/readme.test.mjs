import assert from "node:assert/strict";
import { mkdtemp, readFile, rm, writeFile } from "node:fs/promises";
import { tmpdir } from "node:os";
import { join } from "node:path";
import { after, test } from "node:test";
import { SESSION, openPage } from "./setup.mjs";

// The examples of README.md, each in a page beside vt100.js.
const readme = await readFile(new URL("../../README.md", import.meta.url), "utf8");
const blocks = (kind) => [...readme.matchAll(new RegExp(`^\`\`\`${kind}\\n([^]*?)^\`\`\``, "gm"))].map(([, code]) => code);
const room = await mkdtemp(join(tmpdir(), "viewer-readme-"));
after(() => rm(room, { recursive: true }));
const READY = "<script type=module>document.body.dataset.isReady = true</script>";
const [view, player] = blocks("html");
await writeFile(join(room, "view.html"), `<!doctype html>${view}${READY}`);
await writeFile(join(room, "player.html"), `<!doctype html>${player}${READY}`);
const others = {
  "/first.html": join(room, "view.html"), "/second.html": join(room, "player.html"), "/session.cast": SESSION,
};
const browser = await openPage("../first.html", {}, others);

test("the first page displays its text", async () => {
  const text = `document.getElementById("view").shadowRoot.querySelector(".accessible").textContent`;
  assert.match(await browser.until(text), /this text is RED/);
});

test("a player plays on a view", async () => {
  const [code] = blocks("js");
  const lines = code.split("\n").filter((line) => !line.startsWith("import "));
  assert.equal(await browser.evaluate(`(async () => {
    const [{ load }, { Cast, CastPlayer }] = await Promise.all([import("./vt100.js"), import("./view/view.js")]);
    const text = await (await fetch("session.cast")).text(), view = document.getElementById("view");
    ${lines.join("\n")}
    return view.screen === player.parser && player.currentTime >= 5 && player.parser.contents().length > 500;
  })()`), true);
});

test("the second page plays the recording", async () => {
  await browser.open((await browser.evaluate("location.href")).replace("first", "second"));
  const player = `document.querySelector("vt100-player")`;
  assert.equal(await browser.until(`${player}.currentTime > 0.2 && !${player}.paused`), true);
});

test("no errors were reported", () => {
  assert.deepEqual(browser.messages, []);
});
