"""Tests of the line drawing of programs, which viewers see as Unicode characters."""

import asyncio
import os
import subprocess
import sys
import tempfile
import unittest

from sharing import Terminal, needs_websockets, python_path
from test_play import Played, written
from vt100_share._cohort import Cohort


class Screens(unittest.TestCase):
    def test_output_that_is_split_anywhere(self):
        given, wanted = b"q\x1b)0\x0elqk\x0fq", "q┌─┐q"
        for at in range(len(given) + 1):
            cohort = Cohort(2, 9)
            cohort.process(given[:at])
            cohort.advance()
            cohort.process(given[at:])
            cohort.advance()
            self.assertEqual(cohort.parser.contents(), wanted)
            terminal = Terminal()
            terminal.take(cohort.message(None))
            self.assertEqual(terminal.parser.contents(), wanted)

    def test_a_resize_keeps_the_sets(self):
        cohort = Cohort(2, 9)
        cohort.process(b"q\x1b(0")
        cohort.resize(2, 8)
        cohort.process(b"q")
        self.assertEqual(cohort.parser.contents(), "q─")

    @needs_websockets
    def test_a_recording(self):
        events = [[0.0, "o", "\x1b(0lq"], [0.05, "o", "k\x1b(Bk\x1b("], [0.1, "o", "0x"]]

        async def run():
            async with Played(path) as played:
                return await (await played.viewer()).until_end()

        with tempfile.TemporaryDirectory() as folder:
            path = written(folder, events)
            self.assertEqual(asyncio.run(run()).parser.contents(), "┌─┐k│")

    @needs_websockets
    def test_a_record_has_the_bytes_of_the_program(self):
        share = [sys.executable, "-m", "vt100_share", "--headless"]
        with tempfile.TemporaryDirectory() as folder:
            open(f"{folder}/vt100.wasm", "wb").close()
            subprocess.run(
                [*share, "--record", f"{folder}/cast", "--", "printf", r"\033(0lqk"],
                env={**os.environ, "PYTHONPATH": python_path(), "VT100_PAGE": folder},
                stdin=subprocess.DEVNULL, stdout=subprocess.DEVNULL, stderr=subprocess.DEVNULL,
                timeout=60, check=True,
            )
            with open(f"{folder}/cast", encoding="utf-8") as file:
                self.assertIn(r'"\u001b(0lqk"', file.read())


if __name__ == "__main__":
    unittest.main()
