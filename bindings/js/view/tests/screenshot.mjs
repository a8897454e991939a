// screenshot.mjs OUT.png [FOLDER [FILE]]: writes the picture in README.md. FOLDER has vt100.js, and FILE is vt100.wasm.

import { writeFile } from "node:fs/promises";
import { fileURLToPath } from "node:url";
import { serve } from "../serve.mjs";
import { Browser } from "./lib/browser.mjs";

const [out, folder, wasm] = process.argv.slice(2);
const SESSION = fileURLToPath(new URL("../../../../crates/example_cast/stdin", import.meta.url));
const TYPED = String.raw`\e[2J\e[H\e[1mbold\e[m \e[2mdim\e[m \e[3mitalic\e[m \e[4munderlined\e[m \e[7minverse\e[m \e[31mred \e[38;5;208morange`
  + String.raw` \e[48;2;90;40;160;37m RGB \e[m e\u0301 日本語\r\n╭──────┬──────╮\r\n│\e[32m▁▂▃▄▅▆\e[m│ \e[34m░▒▓█\e[m │\r\n╰──────┴──────╯\e[5 q`;

const { server, port } = await serve({ folder, others: { "/vt100.wasm": wasm, "/view/session.cast": SESSION } });
const browser = await Browser.start({ width: 752, height: 1010 });
await browser.open(`http://127.0.0.1:${port}/view/view.html`);
await browser.evaluate(`player.seek(9); document.getElementById("typed").value = ${JSON.stringify(TYPED)};
  document.getElementById("send").click(); player.view.select({ row: 5, col: 5 }, { row: 7, col: 16 });
  new Promise((done) => requestAnimationFrame(() => requestAnimationFrame(() => done(0))))`);
await writeFile(out, await browser.screenshot());
await browser.stop();
server.close();
