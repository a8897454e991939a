"""Tests of errors, and of the exceptions that they raise."""

import array
import copy
import gc
import mmap
import os
import pickle
import re
import subprocess
import sys
import threading
import unittest

import vt100

PACKAGE = os.path.dirname(os.path.dirname(vt100.__file__))


class Integers(unittest.TestCase):
    def setUp(self):
        self.parser = vt100.Parser(5, 20)
        self.parser.process(b"hello\r\n\x1b[31mred\x1b[m")

    def assert_value_errors(self, *calls):
        for call in calls:
            with self.assertRaises(ValueError):
                call()

    def test_sizes_are_checked(self):
        # Each of these is a valid size modulo 65536.
        self.assert_value_errors(
            lambda: vt100.Parser(65536 + 24, 80),
            lambda: vt100.Parser(24, 65536 + 80),
            lambda: vt100.Parser(-65535, 80),
            lambda: vt100.Parser(0, 80),
            lambda: vt100.Parser(24, 0),
            lambda: vt100.Parser(24, 80, -1),
            lambda: vt100.Parser(24, 80, 1 << 64),
            lambda: vt100.Mirror(65536 + 24, 80),
            lambda: vt100.Mirror(24, 80, -1),
            lambda: self.parser.set_size(65538, 3),
            lambda: self.parser.set_size(3, -1),
            lambda: self.parser.save().set_size(0, 3),
            lambda: vt100.Mirror().set_size(3, 65539),
        )
        self.assertEqual(self.parser.size, (5, 20))
        self.assertEqual(vt100.Parser(1, 65535).size, (1, 65535))

    def test_a_cell_that_does_not_exist_is_none(self):
        wrong = (65536, 0), (0, 65536), (-1, 0), (-65536, 0), (0, -65536), (5, 0), (0, 20)
        for row, col in (*wrong, (1 << 80, 0)):
            self.assertIsNone(self.parser.cell(row, col))
        self.assertEqual(self.parser.cell(1, 0), vt100.Cell("r", fgcolor=1))

    def test_places_are_checked(self):
        self.assert_value_errors(
            lambda: self.parser.cells(5),
            lambda: self.parser.cells(65536),
            lambda: self.parser.row_wrapped(5),
            lambda: self.parser.row_wrapped(65536),
            lambda: self.parser.row_wrapped(-1),
            lambda: self.parser.rows(65536),
            lambda: self.parser.rows(-1),
            lambda: self.parser.rows(0, -1),
            lambda: self.parser.rows(0, 65538),
            lambda: self.parser.rows_formatted(20),
            lambda: self.parser.rows_formatted(65536),
            lambda: self.parser.rows_diff(self.parser.save(), 65536),
            lambda: self.parser.contents_between(0, 0, 65536, 3),
            lambda: self.parser.contents_between(0, -65536, 1, 3),
            lambda: self.parser.contents_between(0, 30, 1, 3),
            lambda: self.parser.set_scrollback(-1),
            lambda: self.parser.set_scrollback(1 << 64),
        )
        self.assertEqual(self.parser.contents_between(0, 0, 1, 3), "hello\nred")
        # Rows past the last one are left out; a newline follows each row before the end row.
        text = self.parser.contents_between(0, 0, 65535, 3)
        self.assertEqual(text, "hello\nred\n\n\n\n")

    def test_viewer_numbers_are_checked(self):
        mirror = vt100.Mirror(2, 3)
        viewer = mirror.join()
        for wrong in (viewer + (1 << 64), viewer - (1 << 64), -1, viewer + 1):
            self.assert_value_errors(
                lambda: mirror.update(wrong),
                lambda: mirror.update_scrolling(wrong),
                lambda: mirror.update_with(wrong, repeat=vt100.Repeat.ANY),
                lambda: mirror.leave(wrong),
            )
        mirror.leave(viewer)
        self.assert_value_errors(lambda: mirror.update(viewer), lambda: mirror.leave(viewer))

    def test_what_is_no_integer_is_a_type_error(self):
        for call in (
            lambda: self.parser.cell(0.0, 0),
            lambda: self.parser.rows("0"),
            lambda: vt100.Parser(24.0, 80),
            lambda: vt100.Parser(None, 80),
            lambda: self.parser.set_scrollback(1.0),
        ):
            with self.assertRaises(TypeError):
                call()

    def test_what_is_no_repeat_is_a_type_error(self):
        mirror = vt100.Mirror(2, 3)
        viewer = mirror.join()
        before = self.parser.save()
        for wrong in (True, False, 2, None, "ASCII"):
            with self.assertRaisesRegex(TypeError, "repeat must be a Repeat"):
                self.parser.contents_diff_with(before, repeat=wrong)
            with self.assertRaisesRegex(TypeError, "repeat must be a Repeat"):
                self.parser.state_diff_with(before, repeat=wrong)
            with self.assertRaisesRegex(TypeError, "repeat must be a Repeat"):
                mirror.update_with(viewer, repeat=wrong)
            for difference in (self.parser.contents_diff_bytes, self.parser.state_diff_bytes):
                with self.assertRaisesRegex(TypeError, "repeat must be a Repeat"):
                    difference(before, repeat=wrong)

    def test_messages_name_the_argument(self):
        with self.assertRaisesRegex(ValueError, "cols must be from 1 to 65535, not 65616"):
            vt100.Parser(24, 65616)
        mirror = vt100.Mirror()
        for call, message in (
            (lambda: self.parser.cells(5), "row must be from 0 to 4, not 5"),
            (lambda: self.parser.row_wrapped(9), "row must be from 0 to 4, not 9"),
            (lambda: self.parser.rows_formatted(20), "start must be .* from 0 to 19, not 20"),
            (lambda: self.parser.rows_formatted_bytes(20), "start must be .*, not 20"),
            (lambda: self.parser.contents_between(0, 30, 1, 3), "start_col must be .*, not 30"),
            (lambda: mirror.update(7), "there is no viewer 7"),
            (lambda: mirror.update_bytes(7), "there is no viewer 7"),
            (lambda: mirror.leave(7), "there is no viewer 7"),
        ):
            with self.assertRaisesRegex(ValueError, message):
                call()
        for place, message in (((0, 20), "column 20 of .* 20 columns"), (5, "row 5 of .* 5 rows")):
            with self.assertRaisesRegex(IndexError, message):
                self.parser[place]

    def test_what_cannot_be_found_is_a_type_error(self):
        for wrong, name in ((b"red", "bytes"), (re.compile(b"red"), "pattern of bytes"), (3, "int")):
            with self.assertRaisesRegex(TypeError, f"must be a str .* not .*{name}"):
                self.parser.find(wrong)

    def test_a_misspelt_callback_is_a_type_error(self):
        def method(self, *arguments):
            pass

        for name, meant in (
            ("audible_bel", "audible_bell"),
            ("unhandled_cs", "unhandled_csi"),
            ("on_scrol", "on_scroll"),
            ("set_title", "set_window_title"),
            ("bell", "audible_bell"),
            ("event_lost", "events_lost"),
        ):
            with self.assertRaisesRegex(TypeError, f"Wrong.{name} .*'{meant}'"):
                type("Wrong", (vt100.Callbacks,), {name: method})
        type("Right", (vt100.Callbacks,), {"note": method, "_on_scrol": method, "bell": 0})


class Input(unittest.TestCase):
    def test_bytes_like_objects_are_parsed(self):
        with mmap.mmap(-1, 4) as mapped:
            mapped[:] = b"abcd"
            for data in (
                b"abcd",
                bytearray(b"abcd"),
                memoryview(b"abcd"),
                memoryview(b"a.b.c.d.")[::2],
                array.array("B", b"abcd"),
                mapped,
            ):
                parser, mirror = vt100.Parser(2, 5), vt100.Mirror(2, 5)
                parser.process(data)
                mirror.process(data)
                self.assertEqual(parser.contents(), "abcd")
                terminal = vt100.Parser(2, 5)
                terminal.process(mirror.update(mirror.join()).text.encode())
                self.assertEqual(terminal.contents(), "abcd")

    def test_a_zero_byte_does_not_end_the_input(self):
        parser = vt100.Parser(2, 5)
        parser.process(b"a\0b")  # NUL draws nothing
        self.assertEqual(parser.contents(), "ab")

    def test_what_is_not_bytes_is_a_type_error(self):
        for data in ("text", 3, None, [65, 66], 1.5):
            for target in (vt100.Parser(2, 5), vt100.Mirror(2, 5)):
                with self.assertRaisesRegex(TypeError, "bytes-like"):
                    target.process(data)


class Copies(unittest.TestCase):
    def test_a_parser_is_not_copied(self):
        parser = vt100.Parser(3, 10)
        parser.process(b"hello")
        for copied in (copy.copy, copy.deepcopy):
            with self.assertRaisesRegex(TypeError, r"save\(\)"):
                copied(parser)
        gc.collect()
        self.assertEqual(parser.contents(), "hello")

    def test_a_screen_is_copied(self):
        parser = vt100.Parser(3, 10)
        parser.process(b"hello")
        saved = parser.save()
        for copied in (copy.copy, copy.deepcopy):
            other = copied(saved)
            other.set_size(1, 3)
            self.assertEqual((other.contents(), saved.contents()), ("hel", "hello"))
            del other
            gc.collect()
            self.assertEqual(saved.contents(), "hello")
        parser.process(b" and more")
        self.assertEqual(saved.contents(), "hello")

    def test_a_mirror_is_not_copied_and_nothing_is_pickled(self):
        with self.assertRaises(TypeError):
            copy.copy(vt100.Mirror())
        for made in (vt100.Parser(), vt100.Parser().save(), vt100.Mirror()):
            with self.assertRaises(TypeError):
                pickle.dumps(made)

    def test_no_screen_is_made_empty(self):
        with self.assertRaisesRegex(TypeError, "Parser"):
            vt100.Screen()


class Statuses(unittest.TestCase):
    def test_screens_of_different_sizes_have_no_difference(self):
        parser, other = vt100.Parser(2, 3), vt100.Parser(3, 2)
        for difference in (
            parser.contents_diff,
            parser.contents_diff_scrolling,
            parser.contents_diff_with,
            parser.state_diff,
            parser.state_diff_with,
            parser.contents_diff_bytes,
            parser.state_diff_bytes,
            parser.rows_diff,
        ):
            with self.assertRaisesRegex(vt100.Error, "different sizes"):
                difference(other)
        self.assertEqual(parser.input_mode_diff(other), "")
        self.assertEqual(parser.input_mode_diff_bytes(other), b"")

    def test_each_status_has_a_message(self):
        # VT100_FAILED to VT100_NO_NUMBER in vt100.h
        for status, message in (
            (2, "ran out of memory in an earlier call"),
            (4, "of a different kind"),
            (5, "different sizes"),
            (6, "closed"),
            (7, "initialized already"),
            (8, "no viewer number left"),
            (9, "status 9"),
        ):
            with self.assertRaisesRegex(vt100.Error, message):
                vt100._library.check(status)

    def test_only_screens_have_differences(self):
        for other in (None, "text", vt100.Mirror(2, 3)):
            with self.assertRaises(TypeError):
                vt100.Parser(2, 3).contents_diff(other)
            with self.assertRaises(TypeError):
                vt100.Parser(2, 3).contents_diff_bytes(other)

    def test_a_closed_object_raises_errors(self):
        with vt100.Parser(2, 3) as parser:
            parser.process(b"a")
        for call in (
            parser.contents,
            parser.save,
            parser.shown_copy,
            parser.is_steady,
            lambda: parser.process(b"b"),
            lambda: parser.cell(0, 0),
            lambda: parser.size,
            lambda: parser.pending_len,
        ):
            with self.assertRaisesRegex(vt100.Error, "closed"):
                call()
        parser.close()
        self.assertEqual(repr(parser), "<vt100.Parser closed>")
        with vt100.Mirror() as mirror:
            mirror.join()
        with self.assertRaisesRegex(vt100.Error, "closed"):
            mirror.join()

    def test_a_parser_is_initialized_once(self):
        parser = vt100.Parser(2, 3)
        parser.process(b"a")
        with self.assertRaisesRegex(vt100.Error, "initialized"):
            parser.__init__(4, 5)
        self.assertEqual((parser.size, parser.contents()), ((2, 3), "a"))

    def test_an_allocation_that_fails_is_a_memory_error(self):
        parser = vt100.Parser(2, 3)
        with self.assertRaises(MemoryError):
            parser._call(lambda at: 1)


class Threads(unittest.TestCase):
    def test_rows_beside_set_size(self):
        parser, is_over = vt100.Parser(5, 20), threading.Event()

        def set_sizes():
            while not is_over.is_set():
                parser.set_size(50, 20)
                parser.set_size(3, 20)

        thread = threading.Thread(target=set_sizes)
        thread.start()
        try:
            lengths = {len(parser.rows()) for _ in range(5000)}
            lengths |= {len(parser.display) for _ in range(100)}
            for _ in range(1000):
                parser.cells(2)
                parser.dirty()
        finally:
            is_over.set()
            thread.join()
        self.assertLessEqual(lengths, {3, 5, 50})

    def test_no_other_thread_changes_the_size_within_a_call(self):
        class Interrupted(vt100.Parser):
            """Lets another thread change the size as soon as the size has been read, if it can."""

            @property
            def _state(self):
                state = vt100.Parser._state.fget(self)
                if threading.current_thread() is threading.main_thread():
                    self.thread = threading.Thread(target=self.set_size, args=(50, 200))
                    self.thread.start()
                    self.thread.join(0.05)
                return state

        for call, length in (
            (lambda parser: parser.rows(), 3),
            (lambda parser: parser.rows_formatted(), 3),
            (lambda parser: parser.display, 3),
            (lambda parser: parser.buffer, 3),
            (lambda parser: parser.dirty(), 3),
            (lambda parser: parser.find("a"), 1),
            (lambda parser: parser.cells(2), 20),
            (lambda parser: parser[-1], 20),
        ):
            parser = Interrupted(3, 20)
            parser.process(b"a")
            self.assertEqual(len(call(parser)), length)
            parser.thread.join()
            self.assertEqual(vt100.Parser.size.fget(parser), (50, 200))

    def test_differences_in_both_directions(self):
        first, second = vt100.Parser(5, 20), vt100.Parser(5, 20)
        second.process(b"text")

        def differ(one, other):
            for _ in range(2000):
                one.contents_diff(other)
                self.assertNotEqual(one, other)

        threads = [
            threading.Thread(target=differ, args=pair)
            for pair in ((first, second), (second, first))
        ]
        for thread in threads:
            thread.start()
        for thread in threads:
            thread.join(60)
            self.assertFalse(thread.is_alive())


class Import(unittest.TestCase):
    def import_error(self, **variables):
        environment = {
            name: value for name, value in os.environ.items() if name != "VT100_LIBRARY"
        }
        environment.update(variables, PYTHONPATH=PACKAGE)
        done = subprocess.run(
            [sys.executable, "-c", "import vt100"],
            env=environment,
            stderr=subprocess.PIPE,
            universal_newlines=True,
        )
        if done.returncode == 0:
            self.skipTest("the system has the library installed")
        return done.stderr.splitlines()[-1]

    def test_the_version_is_that_of_the_shared_object(self):
        major, minor = vt100.library_version.split(".")
        self.assertEqual("libvt100.so." + major, vt100._library.SONAME)
        self.assertTrue(minor.isdigit())

    def test_the_version_of_the_package(self):
        with open(os.path.join(PACKAGE, "vt100", "_version.py"), encoding="utf-8") as file:
            self.assertIn(f'__version__ = "{vt100.__version__}"', file.read())
        self.assertRegex(vt100.__version__, r"^\d+\.\d+\.\d+(\.post\d+)?$")

    def test_no_library_is_found(self):
        message = self.import_error(LD_LIBRARY_PATH="")
        self.assertRegex(message, "^ImportError: .*not found.*VT100_LIBRARY")

    def test_the_variable_names_no_library(self):
        for wrong in ("/no/such/file", os.path.abspath(__file__)):
            message = self.import_error(VT100_LIBRARY=wrong)
            self.assertRegex(message, "^ImportError: VT100_LIBRARY does not name a library")
            self.assertIn(wrong, message)

    def test_the_library_is_another_one(self):
        message = self.import_error(VT100_LIBRARY="libc.so.6")
        self.assertRegex(message, "^ImportError: .*another version.*VT100_LIBRARY")


if __name__ == "__main__":
    unittest.main()
