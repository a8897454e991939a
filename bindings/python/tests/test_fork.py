"""Tests of forks while other threads are inside a call."""

import os
import threading
import time
import unittest
import warnings

import vt100


def status_of_child(work):
    """Returns the exit status of a forked process that calls a function, or None if it does not end
    within 20 seconds."""
    with warnings.catch_warnings():
        # Python 3.12 and newer warn of forks beside threads, which these tests are about.
        warnings.simplefilter("ignore", DeprecationWarning)
        child = os.fork()
    if child == 0:
        try:
            work()
        except BaseException:
            os._exit(1)
        os._exit(0)
    for _ in range(2000):
        ended, status = os.waitpid(child, os.WNOHANG)
        if ended:
            return status
        time.sleep(0.01)
    os.kill(child, 9)
    os.waitpid(child, 0)
    return None


@unittest.skipUnless(hasattr(os, "fork"), "no fork")
class Fork(unittest.TestCase):
    def beside_a_thread(self, work, call):
        """Forks while another thread repeats a call."""
        is_over = threading.Event()

        def repeat():
            while not is_over.is_set():
                work()

        thread = threading.Thread(target=repeat)
        thread.start()
        try:
            return {status_of_child(call) for _ in range(10)}
        finally:
            is_over.set()
            thread.join()

    def test_a_call_in_another_thread(self):
        parser = vt100.Parser(24, 80)
        data = b"line of text\r\n" * 50000
        statuses = self.beside_a_thread(lambda: parser.process(data), parser.contents)
        self.assertEqual(statuses, {0})

    def test_objects_that_another_thread_makes(self):
        def work():
            vt100.Parser(3, 10).save().contents()

        self.assertEqual(self.beside_a_thread(work, work), {0})

    def test_two_screens(self):
        one, other = vt100.Parser(24, 80), vt100.Parser(24, 80)
        statuses = self.beside_a_thread(
            lambda: one.contents_diff(other), lambda: other.contents_diff(one)
        )
        self.assertEqual(statuses, {0})

    def test_a_fork_within_a_callback(self):
        statuses = []

        class Forking(vt100.Callbacks):
            def audible_bell(self, screen):
                statuses.append(status_of_child(lambda: screen.save().contents()))

        parser = vt100.Parser(callbacks=Forking())
        parser.process(b"\x07")
        self.assertEqual(statuses, [0])


if __name__ == "__main__":
    unittest.main()
