// serve.mjs [--port N] [--wasm FILE] [--cast FILE] [FOLDER]: serves the page view.html at http://127.0.0.1:N/view/view.html
//
// FOLDER is the directory of vt100.js, by default the one above this file. The module vt100.wasm and the recording
// session.cast are served from the named files, if they are not in FOLDER.

import { createServer } from "node:http";
import { readFile } from "node:fs/promises";
import { extname, join, normalize } from "node:path";
import { fileURLToPath } from "node:url";
import { parseArgs } from "node:util";

const TYPES = {
  ".html": "text/html; charset=utf-8", ".js": "text/javascript", ".mjs": "text/javascript", ".wasm": "application/wasm",
  ".png": "image/png",
};
const ROOT = fileURLToPath(new URL("..", import.meta.url));
const SESSION = fileURLToPath(new URL("../../../crates/example_cast/stdin", import.meta.url));

/** Returns the path of a URL, or null if it is malformed. */
function pathOf(url) {
  try {
    return normalize(decodeURIComponent(new URL(url, "http://localhost").pathname));
  } catch {
    return null;
  }
}

/** Returns the first of the files that can be read, or null. */
async function firstOf(paths) {
  for (const path of paths) {
    try {
      return await readFile(path);
    } catch { /* the next one */ }
  }
  return null;
}

/**
 * Serves the files of `folder` on 127.0.0.1, and those of `others`, a map from paths of URLs to files. Returns the server
 * and its port.
 */
export async function serve({ port = 0, folder = ROOT, others = {} } = {}) {
  const server = createServer(async (request, response) => {
    const path = pathOf(request.url);
    const body = path === null ? null : await firstOf([join(folder, path), others[path]].filter(Boolean));
    if (body === null) return response.writeHead(404).end();
    return response.writeHead(200, { "Content-Type": TYPES[extname(path)] ?? "application/octet-stream" }).end(body);
  });
  await new Promise((done) => server.listen(port, "127.0.0.1", done));
  return { server, port: server.address().port };
}

if (process.argv[1] === fileURLToPath(import.meta.url)) {
  const { values, positionals } = parseArgs({
    allowPositionals: true,
    options: {
      port: { type: "string", default: "8000" },
      wasm: { type: "string" },
      cast: { type: "string", default: SESSION },
    },
  });
  const { port } = await serve({
    port: Number(values.port), folder: positionals[0] ?? ROOT,
    others: { "/vt100.wasm": values.wasm, "/view/session.cast": values.cast },
  });
  console.log(`http://127.0.0.1:${port}/view/view.html`);
}
