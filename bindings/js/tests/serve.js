// serve.js FOLDER PAGE COMMAND..: serves the files of a directory, and prints what a page in it says.
//
// The command, such as a browser, is started with the address of PAGE as its last argument. When the page posts a text
// to /said, the text is printed, and the command is ended. If it ends before that, the exit status is 1.

import { spawn } from "node:child_process";
import { readFile } from "node:fs/promises";
import { createServer } from "node:http";
import { extname, join } from "node:path";

const TYPES = { ".html": "text/html", ".js": "text/javascript", ".wasm": "application/wasm" };
const SECONDS = 60;

const [folder, page, command, ...words] = process.argv.slice(2);

/** Ends the server and the command. */
function end(child, status) {
  process.exitCode = status;
  server.closeAllConnections();
  server.close();
  child.kill();
}

async function textOf(request) {
  const parts = [];
  for await (const part of request) parts.push(part);
  return Buffer.concat(parts).toString();
}

async function serve(request, response, child) {
  const { pathname } = new URL(request.url, "http://localhost");
  if (request.method === "POST" && pathname === "/said") {
    console.log(await textOf(request));
    response.end();
    return end(child, 0);
  }
  try {
    const found = await readFile(join(folder, pathname));
    response.writeHead(200, { "Content-Type": TYPES[extname(pathname)] ?? "application/octet-stream" });
    response.end(found);
  } catch {
    response.writeHead(404);
    response.end();
  }
}

const server = createServer();
server.listen(0, "127.0.0.1", () => {
  const address = `http://127.0.0.1:${server.address().port}/${page}`;
  const child = spawn(command, [...words, address], { stdio: ["ignore", "ignore", "inherit"] });
  const timer = setTimeout(() => end(child, 1), 1000 * SECONDS);
  child.on("close", () => {
    clearTimeout(timer);
    end(child, process.exitCode ?? 1);
  });
  server.on("request", (request, response) => serve(request, response, child));
});
