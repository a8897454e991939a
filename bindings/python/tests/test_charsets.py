"""Tests of the translator of character sets."""

import re
import shutil
import subprocess
import unicodedata
import unittest

import vt100
from vt100 import Charsets

from patient import Terminal

#: The characters of the bytes 0x5F to 0x7E in DEC Special Graphics (DEC's manual of the VT220).
DRAWN = " ◆▒␉␌␍␊°±␤␋┘┐┌└┼⎺⎻─⎼⎽├┤┴┬│≤≥π≠£·"

#: The Unicode names of these characters. DEC's manual of the VT510 calls them: blank; diamond; checkerboard; HT, FF, CR
#: and LF; degree symbol; plus/minus; NL and VT; lower-right, upper-right, upper-left and lower-left corner; crossing
#: lines; horizontal line, scan 1, 3, 5, 7 and 9; left, right, bottom and top T; vertical bar; less than or equal to;
#: greater than or equal to; pi; not equal to; UK pound sign; centered dot.
NAMES = [
    "SPACE",
    "BLACK DIAMOND",
    "MEDIUM SHADE",
    "SYMBOL FOR HORIZONTAL TABULATION",
    "SYMBOL FOR FORM FEED",
    "SYMBOL FOR CARRIAGE RETURN",
    "SYMBOL FOR LINE FEED",
    "DEGREE SIGN",
    "PLUS-MINUS SIGN",
    "SYMBOL FOR NEWLINE",
    "SYMBOL FOR VERTICAL TABULATION",
    "BOX DRAWINGS LIGHT UP AND LEFT",
    "BOX DRAWINGS LIGHT DOWN AND LEFT",
    "BOX DRAWINGS LIGHT DOWN AND RIGHT",
    "BOX DRAWINGS LIGHT UP AND RIGHT",
    "BOX DRAWINGS LIGHT VERTICAL AND HORIZONTAL",
    "HORIZONTAL SCAN LINE-1",
    "HORIZONTAL SCAN LINE-3",
    "BOX DRAWINGS LIGHT HORIZONTAL",
    "HORIZONTAL SCAN LINE-7",
    "HORIZONTAL SCAN LINE-9",
    "BOX DRAWINGS LIGHT VERTICAL AND RIGHT",
    "BOX DRAWINGS LIGHT VERTICAL AND LEFT",
    "BOX DRAWINGS LIGHT UP AND HORIZONTAL",
    "BOX DRAWINGS LIGHT DOWN AND HORIZONTAL",
    "BOX DRAWINGS LIGHT VERTICAL",
    "LESS-THAN OR EQUAL TO",
    "GREATER-THAN OR EQUAL TO",
    "GREEK SMALL LETTER PI",
    "NOT EQUAL TO",
    "POUND SIGN",
    "MIDDLE DOT",
]

#: The glyphs of terminfo(5) by the characters that stand for them in acsc, with the code points of curs_add_wch(3).
#: For h and i, terminfo(5) has glyphs of the AT&T 4410, a board of squares and a lantern; DEC has NL and VT.
ACSC = {
    "`": "\u25c6",  # diamond
    "a": "\u2592",  # checker board (stipple)
    "f": "\u00b0",  # degree symbol
    "g": "\u00b1",  # plus/minus
    "h": "\u2424",  # NL
    "i": "\u240b",  # VT
    "j": "\u2518",  # lower right corner
    "k": "\u2510",  # upper right corner
    "l": "\u250c",  # upper left corner
    "m": "\u2514",  # lower left corner
    "n": "\u253c",  # large plus or crossover
    "o": "\u23ba",  # scan line 1
    "p": "\u23bb",  # scan line 3
    "q": "\u2500",  # horizontal line
    "r": "\u23bc",  # scan line 7
    "s": "\u23bd",  # scan line 9
    "t": "\u251c",  # tee pointing right
    "u": "\u2524",  # tee pointing left
    "v": "\u2534",  # tee pointing up
    "w": "\u252c",  # tee pointing down
    "x": "\u2502",  # vertical line
    "y": "\u2264",  # less-than-or-equal-to
    "z": "\u2265",  # greater-than-or-equal-to
    "{": "\u03c0",  # greek pi
    "|": "\u2260",  # not-equal
    "}": "\u00a3",  # UK pound sign
    "~": "\u00b7",  # bullet
}

#: Debian's terminfo entries of terminals with DEC Special Graphics.
ENTRIES = ("xterm", "vt220", "linux")


def strings_of(entry):
    """Returns the strings of a terminfo entry by their names, without delays."""
    told = subprocess.run(["infocmp", "-1", entry], capture_output=True, check=True, text=True).stdout
    found = re.findall(r"^\t(\w+)=(.*),$", told, re.MULTILINE)
    return {name: unescaped(re.sub(r"\$<[^>]*>", "", text)) for name, text in found}


def unescaped(text):
    """Returns the characters for which infocmp writes ^X, \\E, or a backslash and the character itself."""
    return re.sub(r"\^(.)|\\(.)", lambda it: chr(ord(it[1]) & 31) if it[1] else "\x1b" if it[2] == "E" else it[2], text)


def translated(*chunks):
    charsets = Charsets()
    return b"".join(charsets.translate(chunk) for chunk in chunks)


class Test(unittest.TestCase):
    def test_each_character_is_translated(self):
        drawing = bytes(range(0x5F, 0x7F))
        self.assertEqual(translated(drawing), drawing)
        self.assertEqual(translated(b"\x1b(0" + drawing).decode(), "\x1b(0" + DRAWN)

    def test_each_character_has_the_name_of_the_manual(self):
        for byte, name in enumerate(NAMES, 0x5F):
            with self.subTest(name=name):
                parser = vt100.Parser(1, 4)
                parser.process(translated(b"\x1b(0" + bytes([byte]) + b"\x1b(B" + bytes([byte])))
                drawn, plain = parser.cell(0, 0).text, parser.cell(0, 1).text
                self.assertEqual((unicodedata.name(drawn), plain), (name, chr(byte)))

    @unittest.skipUnless(shutil.which("infocmp"), "infocmp is not installed")
    def test_glyphs_of_terminfo(self):
        for entry in ENTRIES:
            strings = strings_of(entry)
            names, codes = strings["acsc"][::2], strings["acsc"][1::2]
            self.assertGreaterEqual(set(names), set(ACSC) - {"h", "i"})
            for name, code in zip(names, codes):
                with self.subTest(entry=entry, glyph=name):
                    sent = strings.get("enacs", "") + strings["smacs"] + code + strings["rmacs"] + code
                    drawn = re.sub(r"\x1b..|[\x0e\x0f]", "", translated(sent.encode()).decode())
                    # The arrows and the block of linux are not in DEC's set.
                    self.assertEqual(drawn, ACSC.get(name, code) + code)

    def test_input_may_be_split_anywhere(self):
        given = b"q\x1b)0q\x0eq\x0f\x1b*0\x1bNqq\x1b]0;q\x07\x1b7\x1b(0q\x1b8q"
        wanted = "q\x1b)0q\x0e─\x0f\x1b*0\x1bN─q\x1b]0;q\x07\x1b7\x1b(0─\x1b8q".encode()
        for at in range(len(given) + 1):
            self.assertEqual(translated(given[:at], given[at:]), wanted)
        self.assertEqual(translated(*(bytes([byte]) for byte in given)), wanted)

    def test_bytes_of_each_kind(self):
        for data in (b"\x1b(0q", bytearray(b"\x1b(0q"), memoryview(b"\x1b(0q")):
            self.assertEqual(translated(data), "\x1b(0─".encode())
        self.assertEqual(translated(b""), b"")
        self.assertEqual(translated(b"\x1b(0", b"\xff\xc3q"), b"\x1b(0\xff\xc3" + "─".encode())

    def test_wrong_arguments_change_nothing(self):
        charsets = Charsets()
        charsets.translate(b"\x1b(0")
        for wrong in ("q", None, 7):
            with self.assertRaises(TypeError):
                charsets.translate(wrong)
        self.assertEqual(charsets.translate(b"q").decode(), "─")
        with self.assertRaises(TypeError):
            Charsets(1)

    def test_a_parser_displays_the_translation(self):
        charsets, parser = Charsets(), vt100.Parser(2, 8)
        parser.process(charsets.translate(b"\x1b(0lqk\r\nmqj\x1b(Bmqj"))
        self.assertEqual(parser.contents(), "┌─┐\n└─┘mqj")

    def test_a_terminal_of_a_program_displays_it(self):
        with Terminal(["printf", r"\033(0lqk\033(Bk"], rows=2, cols=9) as terminal:
            terminal.wait_end()
            self.assertEqual(terminal.screen.contents(), "┌─┐k")

    def test_a_closed_translator(self):
        with Charsets() as charsets:
            self.assertEqual(repr(charsets), "<vt100.Charsets>")
        self.assertEqual(repr(charsets), "<vt100.Charsets closed>")
        with self.assertRaises(vt100.Error):
            charsets.translate(b"q")


if __name__ == "__main__":
    unittest.main()
