"""Tests of what is sent for keys and for the mouse, as xterm's control sequences document says."""

import os
import unittest

import vt100
from vt100 import MouseProtocolEncoding as Encoding
from vt100 import MouseProtocolMode as Mode
from vt100 import _keys
from vt100._keys import KEYS, key_bytes, mouse_bytes, paste_text

JAVASCRIPT = os.path.join(os.path.dirname(__file__), "..", "..", "js", "keys.js")


# xterm's control sequences, "VT100-style keypad": what keys send with NumLock, and after ESC O.
KEYPAD = {
    "keypad_0": ("0", "p"), "keypad_1": ("1", "q"), "keypad_2": ("2", "r"), "keypad_3": ("3", "s"),
    "keypad_4": ("4", "t"), "keypad_5": ("5", "u"), "keypad_6": ("6", "v"), "keypad_7": ("7", "w"),
    "keypad_8": ("8", "x"), "keypad_9": ("9", "y"), "keypad_multiply": ("*", "j"),
    "keypad_add": ("+", "k"), "keypad_comma": (",", "l"), "keypad_subtract": ("-", "m"),
    "keypad_decimal": (".", "n"), "keypad_divide": ("/", "o"), "keypad_enter": ("\r", "M"),
    "keypad_equal": ("=", "X"),
}


class Pasted(unittest.TestCase):
    def test_controls_but_tab_and_newlines_are_removed(self):
        kept = {"\t": "\t", "\n": "\r", "\r": "\r"}
        for code in range(0x100):
            is_control = code < 0x20 or 0x7F <= code < 0xA0
            expected = kept.get(chr(code), "") if is_control else chr(code)
            for is_bracketed, form in ((False, "a{}b"), (True, "\x1b[200~a{}b\x1b[201~")):
                with self.subTest(code=code, is_bracketed=is_bracketed):
                    text = paste_text(f"a{chr(code)}b", is_bracketed)
                    self.assertEqual(text, form.format(expected))
        self.assertEqual(paste_text("a\r\n\x03b\n\U0001f600", False), "a\rb\r\U0001f600")

    @unittest.skipUnless(os.path.exists(JAVASCRIPT), "there is no keys.js")
    def test_javascript_has_the_same_list(self):
        with open(JAVASCRIPT, encoding="utf-8") as file:
            self.assertIn(f"UNPASTED = /{_keys._UNPASTED.pattern}/g;", file.read())


class Keys(unittest.TestCase):
    def test_modifiers(self):
        for key, sent in (
            ("a", b"a"),
            ("shift-a", b"A"),
            ("alt-a", b"\x1ba"),
            ("ctrl-a", b"\x01"),
            ("ctrl-C", b"\x03"),
            ("ctrl-alt-a", b"\x1b\x01"),
            ("ctrl-[", b"\x1b"),
            ("ctrl-?", b"\x7f"),
            ("-", b"-"),
            ("alt--", b"\x1b-"),
            ("up", b"\x1b[A"),
            ("shift-up", b"\x1b[1;2A"),
            ("alt-up", b"\x1b[1;3A"),
            ("alt-shift-left", b"\x1b[1;4D"),
            ("ctrl-right", b"\x1b[1;5C"),
            ("ctrl-shift-home", b"\x1b[1;6H"),
            ("ctrl-alt-end", b"\x1b[1;7F"),
            ("f1", b"\x1bOP"),
            ("shift-f1", b"\x1b[1;2P"),
            ("ctrl-f5", b"\x1b[15;5~"),
            ("ctrl-shift-f12", b"\x1b[24;6~"),
            ("shift-delete", b"\x1b[3;2~"),
            ("ctrl-alt-shift-page_up", b"\x1b[5;8~"),
            ("shift-tab", b"\x1b[Z"),
            ("alt-enter", b"\x1b\r"),
            ("ctrl-space", b"\0"),
            ("ctrl-alt-space", b"\x1b\0"),
            ("alt-backspace", b"\x1b\x7f"),
        ):
            self.assertEqual(key_bytes(key, False), sent, key)

    def test_each_key(self):
        # xterm's control sequences, "PC-Style Function Keys", and its other keys
        sent = {
            "enter": "\r", "tab": "\t", "escape": "\x1b", "backspace": "\x7f", "space": " ",
            "up": "\x1b[A", "down": "\x1b[B", "right": "\x1b[C", "left": "\x1b[D", "home": "\x1b[H",
            "end": "\x1b[F", "insert": "\x1b[2~", "delete": "\x1b[3~", "page_up": "\x1b[5~",
            "page_down": "\x1b[6~", "f1": "\x1bOP", "f2": "\x1bOQ", "f3": "\x1bOR", "f4": "\x1bOS",
            "f5": "\x1b[15~", "f6": "\x1b[17~", "f7": "\x1b[18~", "f8": "\x1b[19~", "f9": "\x1b[20~",
            "f10": "\x1b[21~", "f11": "\x1b[23~", "f12": "\x1b[24~", "begin": "\x1b[E",
            **{name: text for name, (text, _) in KEYPAD.items()},
        }
        self.assertEqual(KEYS, sent)
        for key, text in sent.items():
            self.assertEqual(key_bytes(key, False), text.encode(), key)

    def test_the_keypad_depends_on_its_mode_and_on_modifiers(self):
        for name, (text, final) in KEYPAD.items():
            self.assertEqual(key_bytes(name, True, True), b"\x1bO" + final.encode(), name)
            self.assertEqual(key_bytes(name, True, False), text.encode(), name)
            self.assertEqual(key_bytes(f"alt-{name}", True, True), b"\x1b" + text.encode(), name)
        for name in ("7", "home", "enter"):
            self.assertEqual(key_bytes(name, False, True), key_bytes(name, False), name)
        self.assertEqual(key_bytes("begin", True, True), b"\x1bOE")
        self.assertEqual(key_bytes("ctrl-begin", True), b"\x1b[1;5E")

    def test_other_names(self):
        for key, same in (
            ("esc", "escape"),
            ("Esc", "escape"),
            ("return", "enter"),
            ("Return", "enter"),
            ("pageup", "page_up"),
            ("pagedown", "page_down"),
            ("PageDown", "page_down"),
            ("pgup", "page_up"),
            ("pgdn", "page_down"),
            ("ins", "insert"),
            ("del", "delete"),
            ("F12", "f12"),
            ("C-c", "ctrl-c"),
            ("M-x", "alt-x"),
            ("S-Up", "shift-up"),
            ("C-M-S-pgdn", "ctrl-alt-shift-page_down"),
            ("Ctrl-Alt-Delete", "ctrl-alt-delete"),
        ):
            self.assertEqual(key_bytes(key, True), key_bytes(same, True), key)
        self.assertNotEqual(key_bytes("X", False), key_bytes("x", False))

    def test_modifiers_that_change_nothing(self):
        for key, sent in (
            ("shift-escape", b"\x1b"),
            ("ctrl-escape", b"\x1b"),
            ("shift-enter", b"\r"),
            ("ctrl-enter", b"\r"),
            ("ctrl-tab", b"\t"),
            ("shift-backspace", b"\x7f"),
            ("shift-space", b" "),
            ("ctrl-backspace", b"\x08"),
            ("alt-escape", b"\x1b\x1b"),
        ):
            self.assertEqual(key_bytes(key, False), sent, key)

    def test_only_cursor_keys_without_modifiers_depend_on_the_mode(self):
        self.assertEqual(key_bytes("up", True), b"\x1bOA")
        self.assertEqual(key_bytes("shift-up", True), b"\x1b[1;2A")
        self.assertEqual(key_bytes("delete", True), b"\x1b[3~")

    def test_unknown_keys(self):
        for key in ("no_key", "meta-a", "ctrl-", "ctrl-no_key", "up-ctrl", "ctrl-1", "c-c", "x-up", "C-", "hello"):
            with self.assertRaisesRegex(ValueError, key):
                key_bytes(key, False)


class Mouse(unittest.TestCase):
    def sent(self, action, button="left", mode=Mode.ANY_MOTION, encoding=Encoding.SGR, at=(2, 4)):
        return mouse_bytes(action, *at, button, mode, encoding)

    def test_sgr(self):
        self.assertEqual(self.sent("press"), b"\x1b[<0;5;3M")
        self.assertEqual(self.sent("release", "right"), b"\x1b[<2;5;3m")
        self.assertEqual(self.sent("press", "wheel_down"), b"\x1b[<65;5;3M")
        self.assertEqual(self.sent("move"), b"\x1b[<32;5;3M")
        self.assertEqual(self.sent("move", "none"), b"\x1b[<35;5;3M")
        self.assertEqual(self.sent("press", "ctrl-shift-middle"), b"\x1b[<21;5;3M")
        self.assertEqual(self.sent("press", "alt-left"), b"\x1b[<8;5;3M")
        self.assertEqual(self.sent("press", "shift-left"), b"\x1b[<4;5;3M")
        self.assertEqual(self.sent("press", "ctrl-wheel_up"), b"\x1b[<80;5;3M")

    def test_default_and_utf8(self):
        for encoding in (Encoding.DEFAULT, Encoding.UTF8):
            self.assertEqual(self.sent("press", encoding=encoding), b"\x1b[M %#")
            self.assertEqual(self.sent("release", encoding=encoding), b"\x1b[M#%#")
        at = (2, 299)
        self.assertEqual(
            self.sent("press", encoding=Encoding.UTF8, at=at), b"\x1b[M " + chr(332).encode() + b"#"
        )
        for encoding, last, sent in (
            (Encoding.DEFAULT, 222, b"\xff"),
            (Encoding.UTF8, 2014, chr(2047).encode()),
        ):
            for row, col in ((last, 4), (2, last)):
                place = [sent if number == last else bytes([33 + number]) for number in (col, row)]
                found = self.sent("press", encoding=encoding, at=(row, col))
                self.assertEqual(found, b"\x1b[M " + b"".join(place))
            with self.assertRaisesRegex(ValueError, f"no positions after {last}"):
                self.sent("press", encoding=encoding, at=(2, last + 1))

    def test_events_that_were_not_requested(self):
        for action, button, mode in (
            ("press", "left", Mode.NONE),
            ("release", "left", Mode.PRESS),
            ("move", "left", Mode.PRESS_RELEASE),
            ("move", "none", Mode.BUTTON_MOTION),
        ):
            with self.assertRaisesRegex(ValueError, f"not requested.*{mode.name}"):
                self.sent(action, button, mode)
        self.assertEqual(self.sent("press", "ctrl-left", Mode.PRESS), b"\x1b[<0;5;3M")

    def test_wrong_names(self):
        with self.assertRaisesRegex(ValueError, "'thumb'"):
            self.sent("press", "thumb")
        with self.assertRaisesRegex(ValueError, "'drag'"):
            self.sent("drag")


class Replies(unittest.TestCase):
    def replies(self, data, rows=24, cols=80):
        due = []
        vt100.Parser(rows, cols, callbacks=vt100.Replies(due.append)).process(data)
        return b"".join(due)

    def test_each_query_of_the_table(self):
        # docs/RUNNING.md
        for asked, reply in (
            (b"\x1b[c", b"\x1b[?1;2c"),
            (b"\x1b[0c", b"\x1b[?1;2c"),
            (b"\x1b[>c", b"\x1b[>0;0;0c"),
            (b"\x1b[5n", b"\x1b[0n"),
            (b"\x1b[6n", b"\x1b[1;1R"),
            (b"\x1b[3;7H\x1b[6n", b"\x1b[3;7R"),
            (b"\x1b[1;80Hx\x1b[6n", b"\x1b[1;80R"),
            (b"\x1b]10;?\x07", b"\x1b]10;rgb:d0d0/d0d0/d0d0\x1b\\"),
            (b"\x1b]11;?\x1b\\", b"\x1b]11;rgb:0000/0000/0000\x1b\\"),
            (b"\x1b]52;c;aGk=\x07\x1b]52;c;?\x07", b"\x1b]52;c;aGk=\x1b\\"),
            (b"\x1b[6n\x1b[c", b"\x1b[1;1R\x1b[?1;2c"),
        ):
            self.assertEqual(self.replies(asked), reply, asked)

    def test_other_queries_get_no_reply(self):
        for asked in (b"\x1b[?6n", b"\x1b[1;2c", b"\x1b[1c", b"\x1b[=c", b"\x1b]12;?\x07", b"\x1b]52;c;?\x07"):
            self.assertEqual(self.replies(asked), b"", asked)


if __name__ == "__main__":
    unittest.main()
