// reconnect.mjs READ WRITE: opens the page of vt100-share through a proxy, which loses its connections for a while. The
// program prints the numbers from 1 on until it reads a line, and then "end". Writes what it finds as JSON.

import { connect, createServer } from "node:net";
import { report } from "./browser.mjs";

const writeUrl = new URL(process.argv[3]), port = Number(writeUrl.port), sockets = new Set();
let isDown = false;
const proxy = createServer((near) => {
  if (isDown) return near.destroy();
  const far = connect(port, "127.0.0.1");
  for (const [one, other] of [[near, far], [far, near]]) {
    sockets.add(one.on("error", () => other.destroy()));
    one.pipe(other);
  }
  return near;
});
await new Promise((done) => proxy.listen(0, "127.0.0.1", done));
writeUrl.port = proxy.address().port;

// All rows, from the oldest one that is kept to the last one of the screen.
const ROWS = `(() => {
  const { screen } = document.querySelector("vt100-view"), rows = [];
  for (let left = screen.scrollbackLen; left > 0; left--) {
    screen.setScrollback(left);
    rows.push(screen.rows()[0]);
  }
  screen.setScrollback(0);
  return [...rows, ...screen.contents().split("\\n")];
})()`;
const LAST = `Number(shared.contents.trim().split("\\n").at(-1))`;

await report({}, async (page) => {
  const found = {};
  await page.open(writeUrl.href);
  await page.until(`globalThis.shared?.contents !== "" && ${LAST} > 60`);
  isDown = true;
  for (const socket of sockets) socket.destroy();
  found.lost = await page.until(`document.body.dataset.status === "old" && document.getElementById("status").textContent`);
  const last = await page.evaluate(LAST);
  await new Promise((done) => setTimeout(done, 1000));
  found.isFrozen = await page.evaluate(LAST) === last;
  isDown = false;
  await page.until(`document.body.dataset.status === "current"`);
  found.status = await page.text("status");
  found.missed = await page.until(`${LAST} > ${last} && ${LAST}`) - last;
  await page.press(["Enter", "\r"]);
  await page.contentsWith("end");
  // The rows that the server has kept come again; the last ones soon after the screen.
  found.count = await page.until(`${ROWS}.every((row, at, all) => row === (at + 1 < all.length ? String(at + 1) : "end"))
    && ${ROWS}.length`);
  return found;
});
for (const socket of sockets) socket.destroy();
proxy.close();
