"""Tests of callbacks."""

import threading
import unittest
from unittest import mock

import vt100


class Log(vt100.Callbacks):
    """Callbacks that keep the arguments of each call, except the screen."""

    def __init__(self):
        self.calls = []


def _kept(name, has_screen=True):
    def method(self, *arguments):
        self.calls.append((name, *arguments[1 if has_screen else 0 :]))

    return method


for _name in dir(vt100.Callbacks):
    if not _name.startswith("_") and _name != "on_scroll_row":
        setattr(Log, _name, _kept(_name, _name != "on_scroll"))


def calls_of(data, rows=3, cols=10, scrollback=0):
    log = Log()
    parser = vt100.Parser(rows, cols, scrollback, log)
    parser.process(data)
    return log.calls


class EachCallback(unittest.TestCase):
    def test_bells(self):
        self.assertEqual(calls_of(b"a\x07b\x1bg"), [("audible_bell",), ("visual_bell",)])

    def test_title_and_icon_name(self):
        self.assertEqual(calls_of(b"\x1b]2;a title\x07"), [("set_window_title", b"a title")])
        self.assertEqual(calls_of(b"\x1b]1;icon\x07"), [("set_window_icon_name", b"icon")])
        self.assertEqual(
            calls_of("\x1b]0;\u4e2d\x07".encode()),
            [
                ("set_window_icon_name", "\u4e2d".encode()),
                ("set_window_title", "\u4e2d".encode()),
            ],
        )

    def test_a_title_need_not_be_utf8(self):
        self.assertEqual(calls_of(b"\x1b]2;\xff\xfe\x07"), [("set_window_title", b"\xff\xfe")])

    def test_resize(self):
        self.assertEqual(calls_of(b"\x1b[8;30;100t"), [("resize", 30, 100)])

    def test_clipboard(self):
        self.assertEqual(
            calls_of(b"\x1b]52;c;aGk=\x07"), [("copy_to_clipboard", b"c", b"aGk=")]
        )
        self.assertEqual(calls_of(b"\x1b]52;c;?\x07"), [("paste_from_clipboard", b"c")])

    def test_unhandled_sequences(self):
        self.assertEqual(calls_of(b"\xff"), [("unhandled_char", "\ufffd")])
        self.assertEqual(calls_of(b"\x1b[2J\x05")[0], ("unhandled_control", 5))
        self.assertEqual(calls_of(b"\x1b#8"), [("unhandled_escape", ord("#"), None, ord("8"))])
        self.assertEqual(
            calls_of(b"\x1b[?2026;4:5$p"),
            [("unhandled_csi", ord("?"), ord("$"), [[2026], [4, 5]], "p")],
        )
        self.assertEqual(
            calls_of(b"\x1b]7;file;;x\x07"), [("unhandled_osc", [b"7", b"file", b"", b"x"])]
        )

    def test_rows_that_scroll_off(self):
        self.assertEqual(
            calls_of("one\r\nabcdefghijkl\r\n\x1b[1m\u5b57 \r\nend".encode()),
            [("on_scroll", "one", False, False), ("on_scroll", "abcdefghij", True, False)],
        )
        self.assertEqual(
            calls_of(b"\x1b[?1049h\x1b[Ha\r\nb\r\nc\r\nd"), [("on_scroll", "a", False, True)]
        )

    def test_rows_of_scrollback_are_reported_once_they_are_dropped(self):
        self.assertEqual(calls_of(b"1\r\n2\r\n3\r\n4", scrollback=1), [])
        self.assertEqual(
            calls_of(b"1\r\n2\r\n3\r\n4\r\n5", scrollback=1), [("on_scroll", "1", False, False)]
        )

    def test_rows_that_a_smaller_size_drops(self):
        log = Log()
        parser = vt100.Parser(3, 10, callbacks=log)
        parser.process(b"a\r\nb\r\nc")
        parser.set_size(1, 10)
        rows = [("on_scroll", "a", False, False), ("on_scroll", "b", False, False)]
        self.assertEqual(log.calls, rows)
        self.assertEqual(parser.contents(), "c")


class Order(unittest.TestCase):
    def test_a_callback_sees_the_screen_of_its_byte(self):
        seen = []

        class Look(vt100.Callbacks):
            def audible_bell(self, screen):
                seen.append((screen.contents(), screen.cursor))

            def unhandled_csi(self, screen, first, second, params, final):
                seen.append((screen.contents(), screen.cursor))

        parser = vt100.Parser(3, 10, callbacks=Look())
        parser.process(b"a\x07b\x1b[5npq\x07")
        self.assertEqual(seen, [("a", (0, 1)), ("ab", (0, 2)), ("abpq", (0, 4))])
        self.assertEqual(parser.contents(), "abpq")

    def test_chunks_do_not_matter(self):
        data = b"\x1b]0;t\x07\r\n\n\n\x07\x1b[8;2;3t\x1b]52;c;aGk=\x07\xe4\xb8\xad\xff"
        whole = calls_of(data)
        names = [call[0] for call in whole]
        self.assertEqual(
            names,
            [
                "set_window_icon_name",
                "set_window_title",
                "on_scroll",
                "audible_bell",
                "resize",
                "copy_to_clipboard",
                "unhandled_char",
            ],
        )
        log = Log()
        parser = vt100.Parser(3, 10, callbacks=log)
        for byte in data:
            parser.process(bytes([byte]))
        parser.process(b"")
        self.assertEqual(log.calls, whole)

    def test_only_overridden_methods_are_invoked(self):
        class Bells(vt100.Callbacks):
            count = 0

            def audible_bell(self, screen):
                self.count += 1

        bells = Bells()
        parser = vt100.Parser(2, 10, callbacks=bells)
        parser.process(b"\x07\x1b]2;t\x07\x1bg\r\n\n\n\x07")
        self.assertEqual(bells.count, 2)
        self.assertIs(parser.callbacks, bells)
        self.assertIsNone(vt100.Parser().callbacks)

    def test_a_method_of_the_object_itself_is_invoked(self):
        titles, callbacks = [], vt100.Callbacks()
        callbacks.set_window_title = lambda screen, title: titles.append(title)
        vt100.Parser(callbacks=callbacks).process(b"\x1b]2;one\x07\x1b]2;two\x07")
        self.assertEqual(titles, [b"one", b"two"])

    def test_a_parser_of_its_own_may_be_its_callbacks(self):
        class Titled(vt100.Parser, vt100.Callbacks):
            title = b""

            def __init__(self, *arguments):
                super().__init__(*arguments, callbacks=self)

            def set_window_title(self, screen, title):
                assert screen is self
                self.title = title

        parser = Titled(2, 10)
        parser.process(b"\x1b]2;mine\x07")
        self.assertEqual(parser.title, b"mine")

    def test_each_object_of_a_list_gets_the_events_of_its_methods(self):
        calls = []

        class Bells(vt100.Callbacks):
            def audible_bell(self, screen):
                calls.append("bell")

        class Both(vt100.Callbacks):
            def audible_bell(self, screen):
                calls.append("both")

            def set_window_title(self, screen, title):
                calls.append(title)

        for callbacks in ([Bells(), Both()], (Bells(), vt100.Callbacks(), Both())):
            parser = vt100.Parser(callbacks=callbacks)
            parser.process(b"\x07\x1b]2;t\x07\x07")
            self.assertEqual(calls, ["bell", "both", b"t", "bell", "both"])
            self.assertIs(parser.callbacks, callbacks)
            calls.clear()

    def test_one_object_may_have_both_callbacks_for_rows(self):
        calls = []

        class Rows(vt100.Callbacks):
            def on_scroll(self, text, wrapped, alternate_screen):
                calls.append(("text", text))

            def on_scroll_row(self, row, alternate_screen):
                calls.append(("row", row.text))

        vt100.Parser(1, 9, callbacks=Rows()).process(b"a\r\nb\r\nc")
        self.assertEqual(calls, [("text", "a"), ("row", "a"), ("text", "b"), ("row", "b")])

    def test_callbacks_are_an_object_of_the_class(self):
        for wrong in (Log, "text", lambda: None, [Log(), Log]):
            with self.assertRaisesRegex(TypeError, "Callbacks"):
                vt100.Parser(callbacks=wrong)


class Lost(unittest.TestCase):
    def losing(self, data, loses_all):
        """Returns a parser that has processed bytes, and its calls. An event is lost when events are first requested, or all
        that the library then has."""
        log = Log()
        parser = vt100.Parser(3, 10, callbacks=log)
        library, was_asked = vt100.parser.library, []

        class Losing:
            def __getattr__(self, name):
                return getattr(library, name)

            def vt100_events(self, handle, length, is_whole):
                status = library.vt100_events(handle, length, is_whole)
                if not was_asked:
                    is_whole._obj.value = 0
                    length._obj.value *= not loses_all
                was_asked.append(True)
                return status

        with mock.patch.object(vt100.parser, "library", Losing()):
            parser.process(data)
        return parser, log.calls

    def test_lost_events_are_reported_after_the_others(self):
        parser, calls = self.losing(b"\x07a\x07b", False)
        bell = ("audible_bell",)
        self.assertEqual(calls, [bell, ("events_lost",), bell])
        self.assertEqual(parser.contents(), "ab")

    def test_lost_events_without_others_are_reported(self):
        self.assertEqual(self.losing(b"\x07a", True)[1], [("events_lost",)])


class Changes(unittest.TestCase):
    def test_a_callback_may_resize_the_screen(self):
        class Resizing(Log):
            def resize(self, screen, rows, cols):
                screen.set_size(rows, cols)

        log = Resizing()
        parser = vt100.Parser(3, 10, callbacks=log)
        parser.process(b"a\r\nb\r\nc\x1b[8;2;4t12345")
        # The row that the smaller size drops is not reported; the one that the text scrolls off is.
        self.assertEqual(log.calls, [("on_scroll", "b", False, False)])
        self.assertEqual((parser.size, parser.contents()), ((2, 4), "c12345"))

    def test_an_exception_leaves_process(self):
        class Failing(Log):
            def audible_bell(self, screen):
                raise KeyError("bell")

        log = Failing()
        parser = vt100.Parser(3, 10, callbacks=log)
        with self.assertRaises(KeyError):
            parser.process(b"ab\x07cd\x1b]2;t\x07")
        self.assertEqual((parser.contents(), log.calls), ("ab", []))
        parser.process(b"ef\x1b]2;u\x07")
        self.assertEqual((parser.contents(), log.calls), ("abef", [("set_window_title", b"u")]))

    def test_process_within_a_callback_is_refused(self):
        errors = []

        class Nested(vt100.Callbacks):
            def audible_bell(self, screen):
                try:
                    screen.process(b"x")
                except RuntimeError as error:
                    errors.append(str(error))

        parser = vt100.Parser(3, 10, callbacks=Nested())
        parser.process(b"a\x07b")
        self.assertEqual(parser.contents(), "ab")
        self.assertEqual(errors, ["process was called by a callback of the same parser"])

    def test_a_callback_may_close_the_parser(self):
        class Closing(vt100.Callbacks):
            def audible_bell(self, screen):
                screen.close()

        parser = vt100.Parser(3, 10, callbacks=Closing())
        parser.process(b"a\x07")
        with self.assertRaises(vt100.Error):
            parser.contents()
        parser = vt100.Parser(3, 10, callbacks=Closing())
        with self.assertRaises(vt100.Error):
            parser.process(b"a\x07b")

    def test_callbacks_of_two_threads_do_not_mix(self):
        log = Log()
        parser = vt100.Parser(3, 10, callbacks=log)
        threads = [
            threading.Thread(target=lambda: [parser.process(b"\x1b]2;t\x07") for _ in range(500)])
            for _ in range(3)
        ]
        for thread in threads:
            thread.start()
        for thread in threads:
            thread.join()
        self.assertEqual(log.calls, [("set_window_title", b"t")] * 1500)


if __name__ == "__main__":
    unittest.main()
