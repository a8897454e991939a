// exports.mjs PACKAGE: checks an installed npm package; this program must be beside the directory node_modules. Each path
// in "exports" must lead to files, each module that needs no document must be importable, and the files that a module
// imports must be in the package. Prints what is wrong; the exit status is then 1.

import { existsSync, readdirSync, readFileSync, statSync } from "node:fs";
import { createRequire } from "node:module";
import { dirname, join } from "node:path";

const name = process.argv[2];
const { resolve } = createRequire(import.meta.url);
const folder = dirname(resolve(`${name}/package.json`));
const wrong = [];

/** Yields the paths of all files below a directory. */
function* filesBelow(directory) {
  for (const entry of readdirSync(directory)) {
    const path = join(directory, entry);
    if (statSync(path).isDirectory()) yield* filesBelow(path);
    else yield path;
  }
}

const { exports } = JSON.parse(readFileSync(join(folder, "package.json"), "utf8"));
for (const [path, targets] of Object.entries(exports)) {
  const specifier = join(name, path);
  const files = typeof targets === "string" ? [targets] : Object.values(targets);
  wrong.push(...files.filter((file) => !existsSync(join(folder, file))).map((file) => `${specifier}: no ${file}`));
  try {
    const file = resolve(specifier);
    if (file.endsWith(".js") && !file.includes("/view/")) await import(specifier);
  } catch (error) {
    wrong.push(`${specifier}: ${error}`);
  }
}

for (const file of filesBelow(folder)) {
  if (!/\.(js|d\.ts)$/.test(file)) continue;
  for (const [, target] of readFileSync(file, "utf8").matchAll(/(?:from|import) "(\.[^"]+)"/g)) {
    if (!existsSync(join(dirname(file), target))) wrong.push(`${file}: no ${target}`);
  }
}

console.log(wrong.join("\n"));
process.exitCode = wrong.length > 0 ? 1 : 0;
