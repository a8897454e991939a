# The tests of the npm package, which tests/packages reads and runs by calling in_npm. Its functions and variables are used
# here.
# shellcheck shell=bash disable=SC2154

npm_version=${crate%.*}.$((1000 * ${crate##*.} + port))
npm_package=$made/vt100-$npm_version.tgz

# install_npm: installs the package as npm does, or unpacks it if npm is not installed.
install_npm() {
  mkdir of-npm && cd of-npm && echo '{ "private": true, "type": "module" }' >package.json || return
  if command -v npm >/dev/null; then
    npm install --quiet --no-audit --no-fund --offline --cache "$room/npm-cache" "$npm_package" || return
  else
    mkdir -p node_modules && tar -xf "$npm_package" -C node_modules \
      && mv node_modules/package node_modules/vt100 || return
  fi
  cmp node_modules/vt100/LICENSE "$root/LICENSE" \
    && grep -qF "\"version\": \"$npm_version\"" node_modules/vt100/package.json
}

# in_range_of_npm: whether the range ^V of the crate's version includes the package's.
in_range_of_npm() {
  cd of-npm && echo "{ \"private\": true, \"dependencies\": { \"vt100\": \"^$crate\" } }" >range.json \
    && mkdir range && mv range.json range/package.json && cp -R node_modules range && cd range \
    && npm ls --offline --cache "$room/npm-cache" vt100
}

# files_of_npm: whether the package contains the files that its package.json names, and no tests.
files_of_npm() {
  tar -tf "$npm_package" >listed
  for file in package.json README.md LICENSE vt100.js vt100.d.ts bundle.js lib/screen.js vt100.wasm vt100-memory64.wasm; do
    grep -qx "package/$file" listed || return
  done
  ! grep -E 'tests?/|\.test\.' listed
}

# exports_of_npm: whether each path that the package exports can be imported.
exports_of_npm() {
  cp "$root/tests/lib/exports.mjs" of-npm && cd of-npm && node exports.mjs vt100
}

# snippet_of_npm: whether the first program in the package's README runs where the package is installed.
snippet_of_npm() {
  # shellcheck disable=SC2016 # the text has backquotes
  cd of-npm && sed -n '/^```js$/,/^```$/p' node_modules/vt100/README.md | sed '1d; /^```$/,$d' >program.js \
    && node program.js >said && grep -q 'RED' said
}

# page_of_npm PAGE: whether a page prints the line that the package's README states.
page_of_npm() {
  node "$root/bindings/js/tests/serve.js" of-npm "$1" chromium --headless --no-sandbox --disable-gpu \
    "--user-data-dir=$room/browser" | grep -x 'this text is RED 1'
}

# make_pages: makes a page with the program in the package's README, and one with the same program as esbuild
# bundles it, for which the program imports the package by its name.
make_pages() {
  cd of-npm || return
  local log='console.log = (...words) => fetch("/said", { method: "POST", body: words.join(" ") })'
  { echo "<script>$log</script>" '<script type="module">'; cat program.js; echo '</script>'; } >page.html
  { echo "<script>$log</script>" '<script type="module">'; sed 's|/vt100.js"|/bundle.js"|' program.js; echo '</script>'; } >single.html
  command -v esbuild >/dev/null || return 0
  sed 's|"./node_modules/vt100/vt100.js"|"vt100"|' program.js >source.js \
    && esbuild --bundle --format=esm --outfile=bundle.js source.js && cp node_modules/vt100/vt100.wasm . \
    && echo "<script>$log</script>" '<script type="module" src="bundle.js"></script>' >bundled.html
}

# is_one_file: whether the bundle in the package imports no other module.
is_one_file() {
  ! grep -qE '(from|import) ?"\./' of-npm/node_modules/vt100/bundle.js
}

# types_of_npm: whether programs in TypeScript that use the package compile.
types_of_npm() {
  cd of-npm && sed -E 's#"../vt100.js"#"vt100"#; s#"../(keys|mouse).js"#"vt100/\1.js"#' "$root/bindings/js/tests/use.ts" >use.ts \
    && sed -E 's#"../../vt100.js"#"vt100"#; s#"../view.js"#"vt100/view.js"#' "$root/bindings/js/view/tests/use.ts" >view.ts \
    && echo 'import { load, keyText, TerminalView } from "vt100/bundle.js"; load(new URL(keyText.name)); TerminalView.name;' >bundle.ts \
    && tsc --strict --noEmit --target es2022 --module es2022 --moduleResolution node use.ts view.ts bundle.ts \
    && echo 'import { load } from "vt100"; export const pages = (await load("https://example.org")).memory.buffer;' >node.ts \
    && tsc --strict --noEmit --target es2022 --module es2022 --moduleResolution node --lib es2022 node.ts
}

in_npm() {
  has npm # names it
  try 'npm: files' files_of_npm
  has node || return
  try 'npm: installed' install_npm
  if has npm; then try 'npm: version' in_range_of_npm; fi
  try 'npm: exports' exports_of_npm
  try 'npm: the program in README.md' snippet_of_npm
  try 'npm: links' links_lead of-npm/node_modules/vt100
  if has tsc; then try 'npm: types' types_of_npm; fi
  try 'npm: pages are made' make_pages
  if has chromium; then
    try 'npm: the program in a page' page_of_npm page.html
    try 'npm: the program in a page with all modules in one' page_of_npm single.html
    if has esbuild; then
      try 'npm: all modules are in one file' is_one_file
      try 'npm: the bundled program in a page' page_of_npm bundled.html
    fi
  fi
}
