"""Tests of screens as HTML and SVG."""

import json
import os
import random
import shutil
import subprocess
import unittest
from xml.etree import ElementTree

import vt100
from vt100 import _pictures

JAVASCRIPT = os.path.join(os.path.dirname(os.path.abspath(__file__)), "..", "..", "js")

# Prints the colors of the package for JavaScript and, for each picture of a screen that it reads as an array of rows of
# cells, the same pictures.
PROGRAM = """
import { BACKGROUND, DIM_OPACITY, FOREGROUND, paletteOf } from "./lib/palette.js";
import { htmlOf, svgOf } from "./lib/markup.js";
import { readFileSync } from "node:fs";
const pictures = JSON.parse(readFileSync(0, "utf8")).map((rows) => {
  const screen = { size: { rows: rows.length, cols: rows[0].length }, allCells: () => rows };
  return [htmlOf(screen), svgOf(screen)];
});
console.log(JSON.stringify({ colors: [FOREGROUND, BACKGROUND, DIM_OPACITY, paletteOf()], pictures }));
"""


def screen_of(text, rows=1, cols=10):
    parser = vt100.Parser(rows, cols)
    parser.feed(text)
    return parser


class Html(unittest.TestCase):
    def inner(self, screen, *theme):
        html = screen.to_html(*theme)
        self.assertRegex(html, '^<pre style="[^"]*">\\n')
        self.assertTrue(html.endswith("</pre>"))
        return html.partition("\n")[2][: -len("</pre>")]

    def test_the_element(self):
        html = screen_of("a < b & \"c\"\r\nnext", 3, 12).to_html()
        style = "color:#d4d4d4;background:#101010;width:12ch;font-family:'DejaVu Sans Mono', Menlo, Consolas, monospace"
        self.assertEqual(html, f'<pre style="{style}">\na &lt; b &amp; &quot;c&quot;\nnext\n</pre>')

    def test_colors_and_attributes(self):
        for text, html in (
            ("\x1b[31mred\x1b[m x", '<span style="color:#cd3131">red</span> x'),
            ("\x1b[48;5;67m \x1b[m", '<span style="background:rgb(95,135,175)"> </span>'),
            ("\x1b[97mx", '<span style="color:#ffffff">x</span>'),
            ("\x1b[38;5;16mx", '<span style="color:rgb(0,0,0)">x</span>'),
            ("\x1b[38;5;231mx", '<span style="color:rgb(255,255,255)">x</span>'),
            ("\x1b[38;5;232mx", '<span style="color:rgb(8,8,8)">x</span>'),
            ("\x1b[38;5;255mx", '<span style="color:rgb(238,238,238)">x</span>'),
            ("\x1b[38;2;1;2;3mx", '<span style="color:rgb(1,2,3)">x</span>'),
            ("\x1b[7mx", '<span style="color:#101010;background:#d4d4d4">x</span>'),
            ("\x1b[1mx", '<span style="font-weight:bold">x</span>'),
            ("\x1b[3mx", '<span style="font-style:italic">x</span>'),
            ("\x1b[4mx ", '<span style="text-decoration:underline">x </span>'),
            ("\x1b[2mx", '<span style="opacity:0.6">x</span>'),
            ("\u5b57x", '<span style="display:inline-block;width:2ch">\u5b57</span>x'),
            ("\u5b57\u5b57", '<span style="display:inline-block;width:2ch">\u5b57</span>' * 2),
            ("e\u0301x", "e\u0301x"),
            ("a\x1b[3Cb  ", "a   b"),
            ("a \x1b[1m  ", "a"),
            ("a\x1b[41m ", 'a<span style="background:#cd3131"> </span>'),
            ("a\x1b[4m ", 'a<span style="text-decoration:underline"> </span>'),
            ("\x1b[31ma\x1b[32mb", '<span style="color:#cd3131">a</span><span style="color:#0dbc79">b</span>'),
        ):
            self.assertEqual(self.inner(screen_of(text)), html, text)

    def test_a_theme(self):
        theme = vt100.Theme("#222", "#fff", 0.5, ["#000", '"<red>'])
        screen = screen_of("a\x1b[31;42mb\x1b[m\x1b[2mc", 1, 3)
        span = '<span style="color:&quot;&lt;red&gt;;background:#0dbc79">b</span><span style="opacity:0.5">c</span>'
        self.assertEqual(self.inner(screen, theme), "a" + span)
        self.assertRegex(screen.to_html(theme), '^<pre style="color:#222;background:#fff;')

    def test_the_displayed_rows(self):
        parser = vt100.Parser(1, 5, scrollback=1)
        parser.feed("one\r\ntwo")
        parser.set_scrollback(1)
        self.assertEqual(self.inner(parser), "one")


class Svg(unittest.TestCase):
    def test_backgrounds_and_runs(self):
        svg = screen_of("ab\x1b[1;32;41mcd\x1b[m\r\n\u5b57 <", 2, 10).to_svg().split("\n")
        self.assertEqual(
            svg[0],
            '<svg xmlns="http://www.w3.org/2000/svg" width="90" height="36" viewBox="0 0 90 36"'
            """ font-family="'DejaVu Sans Mono', Menlo, Consolas, monospace" font-size="15" fill="#d4d4d4">""",
        )
        fit = 'lengthAdjust="spacingAndGlyphs"'
        self.assertEqual(
            svg[1:],
            [
                '<rect width="90" height="36" fill="#101010"/>',
                f'<text x="0" y="14" textLength="18" {fit}>ab</text>'
                '<rect x="18" y="0" width="18" height="18" fill="#cd3131"/>'
                f'<text x="18" y="14" textLength="18" {fit} fill="#0dbc79" font-weight="bold">cd</text>',
                f'<text x="0" y="32" textLength="18" {fit}>\u5b57</text>'
                f'<text x="27" y="32" textLength="9" {fit}>&lt;</text>',
                "</svg>",
                "",
            ],
        )

    def test_the_picture_is_xml(self):
        for text in ("<&>\"'", "\ufffe\uffff", "\x1b[2;3;4m \x1b[m\u202e\x1b[7m "):
            svg = screen_of(text).to_svg(vt100.Theme(foreground='"<&'))
            self.assertEqual(ElementTree.fromstring(svg).tag, "{http://www.w3.org/2000/svg}svg")
        self.assertIn(">\ufffd\ufffd<", screen_of("\ufffe\uffff", 1, 2).to_svg())


@unittest.skipUnless(
    shutil.which("node") and os.path.exists(os.path.join(JAVASCRIPT, "lib", "markup.js")),
    "no node, or not the files of the package for JavaScript",
)
class JavaScript(unittest.TestCase):
    """The pictures and colors of the package for JavaScript."""

    def screens(self):
        source = random.Random(7)
        pieces = ["a", "<", " ", "\u5b57", "e\u0301", "\x1b[C", "\x1b[m", "\r\n", "\x1b[38;2;9;8;7m"]
        pieces += [f"\x1b[{number}m" for number in (1, 2, 3, 4, 7, 31, 44, 97, 100)]
        for _ in range(60):
            yield screen_of("".join(source.choice(pieces) for _ in range(60)), 3, 12)

    def test_they_are_the_same(self):
        screens = list(self.screens())
        cells = [
            [[{**cell._asdict(), "wideContinuation": cell.wide_continuation} for cell in row] for row in screen]
            for screen in screens
        ]
        command = ["node", "--input-type=module", "--eval", PROGRAM]
        found = json.loads(
            subprocess.check_output(command, cwd=JAVASCRIPT, input=json.dumps(cells), universal_newlines=True)
        )
        self.assertEqual(found["pictures"], [[screen.to_html(), screen.to_svg()] for screen in screens])
        theme = vt100.Theme()
        palette = [_pictures._indexed(index) for index in range(256)]
        self.assertEqual(found["colors"], [theme.foreground, theme.background, theme.dim_opacity, palette])


if __name__ == "__main__":
    unittest.main()
