// Starts a server and a browser for the tests of a file, and ends them after the tests.

import { after } from "node:test";
import { fileURLToPath } from "node:url";
import { serve } from "../../serve.mjs";
import { Browser } from "../lib/browser.mjs";

/** The recording of a session, and what the program example_cast prints about it. */
export const SESSION = fileURLToPath(new URL("../../../../../crates/example_cast/stdin", import.meta.url));
export const SESSION_OUTPUT = fileURLToPath(new URL("../../../../../crates/example_cast/stdout", import.meta.url));

/** Opens one of the pages, and returns the browser. `files` are further files, by the paths of their URLs. */
export async function openPage(page, options, files = {}) {
  const others = { "/vt100.wasm": process.env.VT100_WASM, "/view/session.cast": SESSION, ...files };
  const { server, port } = await serve({ folder: process.env.VT100_JS, others });
  const browser = await Browser.start(options);
  after(async () => {
    await browser.stop();
    server.close();
  });
  await browser.open(`http://127.0.0.1:${port}/view/${page}`);
  return browser;
}
