// picture.mjs OUT.png [FOLDER]: writes the picture of vt100-share in README.md: mc on the page, as the viewer sees it
// who may type. FOLDER has vt100.wasm, by default that of vt100.js; VT100_LIBRARY names the library. If pngquant is
// installed, it makes the file smaller.

import { spawn, spawnSync } from "node:child_process";
import { cp, mkdtemp, rm } from "node:fs/promises";
import { tmpdir } from "node:os";
import { join } from "node:path";
import { createInterface } from "node:readline";
import { fileURLToPath } from "node:url";
import { SharedPage } from "./browser.mjs";

const [out, folder] = process.argv.slice(2);
const ROOT = fileURLToPath(new URL("../..", import.meta.url));
const PYTHON = `${join(ROOT, "share")}:${join(ROOT, "bindings", "python")}`;
const ROWS = 24, COLS = 84, WINDOW = { width: 8 * COLS, height: 17 * ROWS + 21 };

/** Starts a server that shows mc, and returns it and the addresses for reading and for typing. */
async function start(home) {
  const options = ["--headless", "--write", "--size", `${ROWS}x${COLS}`, ...(folder ? ["--page", folder] : [])];
  const environment = { ...process.env, HOME: home, PYTHONPATH: PYTHON, LC_ALL: "C.UTF-8" };
  const server = spawn("python3", ["-m", "vt100_share", ...options, "--", "mc", "-u", "docs", "js"],
    { cwd: home, env: environment, stdio: ["ignore", "pipe", "inherit"] });
  const urls = [];
  for await (const line of createInterface({ input: server.stdout })) {
    if (urls.push(line.split(/\s+/)[1]) === 2) return { server, urls };
  }
  throw new Error("the server has not started");
}

/** Returns a script that opens the connections of two further viewers. */
const joining = (url) => `for (let count = 0; count < 2; count++) {
  const socket = new WebSocket(${JSON.stringify(url.replace(/^http/, "ws").replace(/#.*/, "viewer"))});
  socket.onopen = () => socket.send(new TextEncoder().encode(${JSON.stringify(`t${url.split("#")[1]}`)}));
}`;

const home = await mkdtemp(join(tmpdir(), "picture-"));
await cp(join(ROOT, "docs"), join(home, "docs"), { recursive: true, preserveTimestamps: true });
await cp(join(ROOT, "bindings", "js"), join(home, "js"), { recursive: true, preserveTimestamps: true });
const { server, urls: [readUrl, writeUrl] } = await start(home), page = await SharedPage.start(WINDOW);
try {
  await page.open(writeUrl);
  await page.contentsWith("Quit");
  await page.evaluate(joining(readUrl));
  await page.press(["ArrowDown"], ["ArrowDown"], ["ArrowDown"], ["Insert"], ["Insert"]);
  await page.contentsWith("2 files");
  await new Promise((done) => setTimeout(done, 2000)); // the next drawing, and the number of viewers
  await page.picture(out);
} finally {
  await page.stop();
  server.kill();
  await rm(home, { recursive: true, force: true });
}
spawnSync("pngquant", ["--force", "--output", out, "64", out]);
