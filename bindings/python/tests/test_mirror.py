"""Tests of mirrors and their viewers."""

import unittest
from unittest import mock

import vt100


class Viewers(unittest.TestCase):
    def test_both_kinds_of_update_keep_viewers_equal(self):
        mirror, shown = vt100.Mirror(3, 8), vt100.Parser(3, 8)
        viewer, terminal = mirror.join(), vt100.Parser(1, 1)
        for piece in range(40):
            text = b"line %d\r\n" % piece
            mirror.process(text)
            shown.process(text)
            update = (mirror.update_scrolling if piece % 4 > 1 else mirror.update)(viewer)
            self.assertEqual(update.size, (3, 8) if piece == 0 else None)
            if update.size:
                terminal.set_size(*update.size)
            terminal.process(update.text.encode())
            self.assertEqual(terminal.contents_formatted(), shown.contents_formatted())
        mirror.set_size(2, 5)
        self.assertEqual(mirror.update_scrolling(viewer).size, (2, 5))
        self.assertEqual(mirror.update(viewer), vt100.Update(""))
        mirror.leave(viewer)

    def test_scrollback_comes_back_when_the_screen_grows(self):
        for capacity, rows in (
            (0, ["", "", "3", "4"]),
            (1, ["", "2", "3", "4"]),
            (0x10000, ["1", "2", "3", "4"]),
            ((1 << 64) - 1, ["1", "2", "3", "4"]),
        ):
            mirror = vt100.Mirror(2, 8, capacity)
            mirror.process(b"1\r\n2\r\n3\r\n4")
            mirror.set_size(4, 8)
            terminal = vt100.Parser(4, 8)
            terminal.feed(mirror.update(mirror.join()).text)
            self.assertEqual(terminal.rows(), rows, capacity)

    def test_runs_are_repeated_if_the_options_allow_it(self):
        mirror = vt100.Mirror(2, 20)
        viewer = mirror.join()
        repeat = vt100.Repeat.ASCII
        self.assertEqual(mirror.update_with(viewer, repeat=repeat).size, (2, 20))
        mirror.process(b"----------")
        self.assertEqual(mirror.update_with(viewer, repeat=repeat), vt100.Update("-\x1b[9b"))
        mirror.process("\r\n────".encode())
        self.assertEqual(mirror.update_with(viewer, repeat=repeat), vt100.Update("\r\n────"))
        self.assertEqual(mirror.update_with(viewer, scroll=True), vt100.Update(""))

    def test_updates_are_portable_if_the_options_say_so(self):
        mirror = vt100.Mirror(2, 20)
        mirror.process(b"\x1b[2ma\x1b[22;1mb")
        first, second = mirror.join(), mirror.join()
        clear = "\x1b[?25h\x1b[m\x1b[H\x1b[J"
        self.assertEqual(
            mirror.update_with(first, portable=True).text, clear + "\x1b[2ma\x1b[m\x1b[1mb"
        )
        self.assertEqual(mirror.update_with(second).text, clear + "\x1b[2ma\x1b[1mb")
        mirror.process(b"\x1b[22;2mc")
        self.assertEqual(
            mirror.update_with(first, portable=True), vt100.Update("\x1b[m\x1b[2mc")
        )
        self.assertEqual(mirror.update(second), vt100.Update("\x1b[2mc"))

    def test_updates_may_be_bytes(self):
        mirror = vt100.Mirror(2, 20)
        mirror.process(b"\x1b[2ma\x1b[22;1mb")
        first, second = mirror.join(), mirror.join()
        clear, size = b"\x1b[?25h\x1b[m\x1b[H\x1b[J", vt100.Size(2, 20)
        for viewer, portable, text in (
            (first, True, b"\x1b[2ma\x1b[m\x1b[1mb"),
            (second, False, b"\x1b[2ma\x1b[1mb"),
        ):
            update = mirror.update_bytes(viewer, portable=portable)
            self.assertEqual(update, vt100.BytesUpdate(clear + text, size))
        mirror.process(b"\x1b[22;2mc")
        update = mirror.update_bytes(first, portable=True)
        self.assertEqual(update, vt100.BytesUpdate(b"\x1b[m\x1b[2mc"))
        self.assertEqual(mirror.update_bytes(second), vt100.BytesUpdate(b"\x1b[2mc"))

    def test_updates_as_bytes_have_the_other_options(self):
        mirror = vt100.Mirror(4, 10)
        viewer = mirror.join()
        mirror.update_bytes(viewer, scroll=True)
        mirror.process("---------\r\n─────────\r\nccccccccc\r\nddddddddd".encode())
        update = mirror.update_bytes(viewer, repeat=vt100.Repeat.ANY)
        text = "-\x1b[8b\r\n─\x1b[8b\r\nc\x1b[8b\r\nd\x1b[8b"
        self.assertEqual(update, vt100.BytesUpdate(text.encode()))
        mirror.process(b"\r\neeeeeeeee")
        update = mirror.update_bytes(viewer, scroll=True)
        self.assertEqual(update, vt100.BytesUpdate(b"\x1b[H\x1b[M\n\n\neeeeeeeee"))

    def test_a_wrong_argument_takes_no_update(self):
        mirror = vt100.Mirror(2, 20)
        viewer = mirror.join()
        mirror.update_bytes(viewer)
        mirror.process(b"a")
        for wrong in (viewer + 1, -1, 1 << 64):
            with self.assertRaises(ValueError):
                mirror.update_bytes(wrong)
        for wrong in ({"repeat": 2}, {"repeat": None}, {"as_bytes": True}):
            with self.assertRaises(TypeError):
                mirror.update_bytes(viewer, **wrong)
        with self.assertRaises(TypeError):
            mirror.update_bytes("0")
        self.assertEqual(mirror.update_bytes(viewer), vt100.BytesUpdate(b"a"))

    def test_bytes_belong_to_one_update(self):
        every_byte = [bytes([number]) for number in range(256)]
        mirror = vt100.Mirror(1, 20)
        viewer = mirror.join()
        mirror.update_bytes(viewer)
        made = []
        for letter in (b"a", b"b", b"", b"c", b""):
            mirror.process(letter)
            made.append(mirror.update_bytes(viewer).data)
        self.assertEqual(made, [b"a", b"b", b"", b"c", b""])
        self.assertEqual([data[0] for data in every_byte], [*range(256)])

    def test_bytes_are_copied_without_a_means_to_write_into_them(self):
        mirror = vt100.Mirror(1, 20)
        viewer = mirror.join()
        mirror.update_bytes(viewer)
        mirror.process("ä".encode())
        with mock.patch("vt100._object._new_bytes", None):
            self.assertEqual(mirror.update_bytes(viewer), vt100.BytesUpdate("ä".encode()))
            self.assertEqual(mirror.update_bytes(viewer), vt100.BytesUpdate(b""))

    def test_a_viewer_may_join_late(self):
        mirror = vt100.Mirror(2, 10)
        first = mirror.join()
        mirror.process(b"one")
        second = mirror.join()
        self.assertNotEqual(first, second)
        mirror.process(b" two")
        for viewer in (first, second):
            update = mirror.update(viewer)
            self.assertEqual(update.size, vt100.Size(2, 10))
            terminal = vt100.Parser(*update.size)
            terminal.process(update.text.encode())
            self.assertEqual(terminal.contents(), "one two")

    def test_a_viewer_is_current_until_the_mirror_reads_or_is_resized(self):
        mirror = vt100.Mirror(3, 8)
        viewer, other = mirror.join(), mirror.join()
        self.assertIs(mirror.is_current(viewer), False)
        mirror.update(viewer)
        self.assertIs(mirror.is_current(viewer), True)
        self.assertIs(mirror.is_current(other), False)
        mirror.process(b"a")
        self.assertIs(mirror.is_current(viewer), False)
        self.assertEqual(mirror.update(viewer), vt100.Update("a"))
        self.assertIs(mirror.is_current(viewer), True)
        self.assertEqual(mirror.update(viewer), vt100.Update(""))
        mirror.set_size(2, 8)
        self.assertIs(mirror.is_current(viewer), False)
        mirror.update_scrolling(viewer)
        self.assertIs(mirror.is_current(viewer), True)
        mirror.leave(viewer)
        self.assertIs(mirror.is_current(viewer), False)
        for number in (-1, 1 << 64):
            with self.assertRaises(ValueError):
                mirror.is_current(number)


if __name__ == "__main__":
    unittest.main()
