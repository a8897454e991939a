// Screens as HTML and SVG.

import assert from "node:assert/strict";
import { test } from "node:test";
import { Theme } from "../view/theme.js";
import { screenOf } from "./module.js";

const PRE = /^<pre style="color:#d4d4d4;background:#101010;width:10ch;font-family:[^"]*monospace">\n/;

/** Returns what an element of HTML contains. */
function innerHtml(screen, options) {
  const html = screen.toHtml(options);
  assert.match(html, /^<pre style="[^"]*">\n[^]*<\/pre>$/);
  return html.slice(html.indexOf("\n") + 1, -"</pre>".length);
}

test("HTML has the text of the rows", () => {
  const screen = screenOf("a < b & \"c\"\r\nnext", 3, 12);
  assert.equal(innerHtml(screen), "a &lt; b &amp; &quot;c&quot;\nnext\n");
  assert.match(screenOf("").toHtml(), PRE);
});

test("HTML has colors and attributes", () => {
  const cases = {
    "\x1b[31mred\x1b[m x": '<span style="color:#cd3131">red</span> x',
    "\x1b[48;5;67m \x1b[m": '<span style="background:rgb(95,135,175)"> </span>',
    "\x1b[38;2;1;2;3mx": '<span style="color:rgb(1,2,3)">x</span>',
    "\x1b[7mx": '<span style="color:#101010;background:#d4d4d4">x</span>',
    "\x1b[1;3;4mx": '<span style="font-weight:bold;font-style:italic;text-decoration:underline">x</span>',
    "\x1b[4mx  \x1b[m  ": '<span style="text-decoration:underline">x  </span>',
    "\x1b[2mx": '<span style="opacity:0.6">x</span>',
    "\u5b57x": '<span style="display:inline-block;width:2ch">\u5b57</span>x',
    "e\u0301x": "e\u0301x",
    "\x1b[3;2;31mab\x1b[32mc": '<span style="color:#cd3131;font-style:italic;opacity:0.6">ab</span>'
      + '<span style="color:#0dbc79;font-style:italic;opacity:0.6">c</span>',
  };
  for (const [text, html] of Object.entries(cases)) assert.equal(innerHtml(screenOf(text, 1, 10)), html);
});

test("SVG draws backgrounds, and runs of text in their columns", () => {
  const svg = screenOf("ab\x1b[1;32;41mcd\x1b[m\r\n\u5b57 < \x1b[4me  ", 2, 10).toSvg();
  const lines = svg.split("\n");
  assert.match(lines[0], /^<svg xmlns="http:\/\/www.w3.org\/2000\/svg" width="90" height="36" viewBox="0 0 90 36" /);
  const fit = 'lengthAdjust="spacingAndGlyphs"';
  assert.deepEqual(lines.slice(1), [
    '<rect width="90" height="36" fill="#101010"/>',
    `<text x="0" y="14" textLength="18" ${fit}>ab</text><rect x="18" y="0" width="18" height="18" fill="#cd3131"/>`
      + `<text x="18" y="14" textLength="18" ${fit} fill="#0dbc79" font-weight="bold">cd</text>`,
    `<text x="0" y="32" textLength="18" ${fit}>\u5b57</text><text x="27" y="32" textLength="9" ${fit}>&lt;</text>`
      + `<text x="45" y="32" textLength="27" ${fit} text-decoration="underline">e\u00a0\u00a0</text>`,
    "</svg>",
    "",
  ]);
});

test("a theme has other colors", () => {
  const screen = screenOf("a\x1b[31;42mb", 1, 2);
  const theme = { foreground: "#222", background: "#fff", palette: ["#000", "\"<red>"] };
  assert.equal(innerHtml(screen, { theme }), 'a<span style="color:&quot;&lt;red&gt;;background:#0dbc79">b</span>');
  assert.match(screen.toHtml({ theme }), /^<pre style="color:#222;background:#fff;/);
  assert.match(screen.toSvg({ theme: Theme.light }), /fill="#ffffff"\/>/);
});

test("colors of wrong types are refused", () => {
  const screen = screenOf("a", 1, 2);
  const wrong = [
    { palette: "#000" }, { palette: [1] }, { palette: ["#000", null] }, { foreground: 5 }, { background: null },
    { dimOpacity: "0.5" }, { palette: { 0: "#000" } },
  ];
  for (const theme of wrong) {
    for (const call of [() => screen.toHtml({ theme }), () => screen.toSvg({ theme }), () => new Theme(theme)]) {
      assert.throws(call, TypeError, JSON.stringify(theme));
    }
  }
  for (const dimOpacity of [-0.1, 1.5, NaN]) assert.throws(() => screen.toSvg({ theme: { dimOpacity } }), RangeError);
  for (const colors of [{ cursor: 1 }, { cursorText: null }, { selection: 1 }, { selectionText: 5 }]) {
    assert.throws(() => new Theme(colors), TypeError, JSON.stringify(colors));
  }
  assert.equal(new Theme({ selectionText: null }).selectionText, null);
});

test("characters that XML does not allow are replaced", () => {
  assert.match(screenOf("\ufffe\uffff", 1, 2).toSvg(), />\ufffd\ufffd</);
});
