"""Tests of the page of vt100-share: of its connection in node, and of the whole in Chromium.

VT100_WASM names the module for JavaScript, unless it is beside vt100.js. SHARE_PICTURE names a file
for a picture of the page."""

import json
import os
import re
import shutil
import subprocess
import sys
import tempfile
import unittest

from sharing import MODULE, needs_websockets, python_path

TESTS = os.path.dirname(os.path.abspath(__file__))

PROGRAM = r"""
stty -echo raw
printf '\033]2;a title\007\033[?1h\033=\033[1;32mready\033[m '
printf '\346\227\245\346\234\254 \342\224\214\342\224\200\r\n'
typed=$(dd bs=1 count=9 2>/dev/null | od -An -c)
printf 'got %s\r\n' "$typed"
dd bs=1 count=1 2>/dev/null
exit 4
"""

MOUSE_PROGRAM = r"""
stty -echo raw
printf '\033[?1002h\033[?1006h\033[?2004hready\r\n'
exec cat -v
"""

SCROLLED_PROGRAM = r"""
stty -echo
seq 300
n=300
while read -r line; do
  n=$((n + 1))
  echo $n
done
"""

COUNTING_PROGRAM = r"""
stty -echo -icanon min 0 time 0
n=0
until [ -n "$(dd bs=1 count=1 2>/dev/null | od -An -c)" ]; do
  n=$((n + 1))
  echo $n
  sleep 0.01
done
echo end
sleep 60
"""

PHONE_PROGRAM = r"""
seq 300
stty -echo raw
printf 'ready '
exec cat -vT
"""


@unittest.skipUnless(shutil.which("node"), "there is no node")
class Modules(unittest.TestCase):
    def _run(self, name):
        subprocess.run(["node", os.path.join(TESTS, name)], check=True, timeout=300)

    def test_the_page_acknowledges_and_connects_again(self):
        self._run("connection.mjs")

    def test_input_is_within_the_limits_and_complete(self):
        self._run("input.mjs")


@needs_websockets
@unittest.skipUnless(shutil.which("chromium"), "there is no chromium")
@unittest.skipUnless(shutil.which("node"), "there is no node")
@unittest.skipUnless(os.path.exists(MODULE), "there is no vt100.wasm")
class Page(unittest.TestCase):
    def _start(self, folder, program, *options):
        """Shares a program. Returns the process of the server, and the two addresses."""
        shutil.copy(MODULE, os.path.join(folder, "vt100.wasm"))
        share = [sys.executable, "-m", "vt100_share", "--headless", "--write", "--page", folder]
        process = subprocess.Popen(
            [*share, *options, "--", "sh", "-c", program],
            stdout=subprocess.PIPE,
            stderr=subprocess.PIPE,
            universal_newlines=True,
            env={**os.environ, "PYTHONPATH": python_path()},
        )
        self.addCleanup(process.communicate)
        self.addCleanup(process.kill)
        return process, [re.search(r"http:\S+", process.stdout.readline())[0] for _ in range(2)]

    def _open(self, check, urls, picture=None):
        """Returns what a check finds on the page: the name of a script and its first arguments."""
        path = os.environ.get("SHARE_PICTURE")
        pictures = [path.replace(".png", picture + ".png")] if path and picture is not None else []
        script, *words = check.split()
        command = ["node", os.path.join(TESTS, script), *words, *urls, *pictures]
        found = json.loads(subprocess.check_output(command, timeout=300))
        self.assertEqual(found["messages"], [])
        return found

    def _check(self, check, program, *options, picture=None):
        """Shares a program until a check has found what it reports."""
        with tempfile.TemporaryDirectory() as folder:
            process, urls = self._start(folder, program, *options)
            found = self._open(check, urls, picture)
            process.terminate()
            self.assertEqual(process.wait(60), 128 + 15)
        return found

    def test_the_page_shows_the_screen_and_types(self):
        with tempfile.TemporaryDirectory() as folder:
            process, urls = self._start(folder, PROGRAM)
            found = self._open("page.mjs type", urls, "")
            self.assertEqual(process.wait(60), 4)
        self.assertEqual(found["read"], "ready \u65e5\u672c \u250c\u2500")
        self.assertEqual((found["title"], found["status"]), ("a title", ""))
        self.assertTrue(found["fits"])
        # An e with an acute accent, keys of the cursor and the keypad in application mode, and Enter.
        self.assertEqual(found["write"].split("got ")[1].split(), "303 251 033 O A 033 O w \\r".split())
        self.assertEqual(found["end"], "The program has ended with status 4.")

    def test_the_page_loads_few_files_if_its_scripts_are_bundled(self):
        with tempfile.TemporaryDirectory() as folder:
            _, urls = self._start(folder, MOUSE_PROGRAM)
            found = self._open("page.mjs requests", urls)
        self.assertIn("/view/view.js", found["paths"])
        self.assertGreater(len(found["paths"]), 20)
        if not shutil.which("esbuild"):
            self.skipTest("there is no esbuild")
        with tempfile.TemporaryDirectory() as folder:
            subprocess.check_call([os.path.join(TESTS, "..", "bundle"), os.path.join(folder, "page.bundle.js")])
            _, urls = self._start(folder, MOUSE_PROGRAM)
            found = self._open("page.mjs requests", urls)
        self.assertEqual(sorted(found["paths"]), ["/", "/share.css", "/share.js", "/vt100.wasm"])

    def test_the_mouse_is_the_program_s_unless_shift_is_held(self):
        found = self._check("page.mjs mouse", MOUSE_PROGRAM)
        reports = "<18;5;3M <18;5;3m <0;5;3M <32;8;4M <0;8;4m <65;8;4M".split()
        self.assertEqual(found["reports"], "ready\n" + "".join("^[[" + one for one in reports))
        self.assertEqual((found["readerSelects"], found["writerSelects"]), ("ready", "ready"))
        self.assertEqual((found["isCleared"], found["copied"]), (True, "ready"))
        self.assertTrue(found["pasted"].endswith("^[[200~ready^[[201~"))

    @unittest.skipUnless(shutil.which("mc"), "there is no mc")
    def test_mc_answers_keys_and_the_mouse(self):
        with tempfile.TemporaryDirectory() as home:
            for name in ("alpha", "beta"):
                os.mkdir(os.path.join(home, name))
            program = f"cd {home} && HOME={home} exec mc -u -x"
            found = self._check("page.mjs mc", program, picture="-mc")
            self.assertTrue(os.path.isdir(os.path.join(home, "gamma")))
            self.assertFalse(os.path.exists(os.path.join(home, "beta")))
        self.assertIn("/gamma", found["contents"])

    def test_rows_that_have_scrolled_off(self):
        found = self._check("page.mjs scrollback", SCROLLED_PROGRAM, "--scrollback", "100")
        # Of 300 numbers, the last 23 are on the screen, above the empty row of the cursor.
        self.assertEqual((found["kept"], found["bottom"], found["oldest"]), (100, 278, 178))
        self.assertEqual((found["page"], found["shown"]), (24, "24 rows back"))
        self.assertTrue(found["wheel"])
        self.assertEqual(found["end"], 278)
        self.assertTrue(found["stays"])
        self.assertEqual(found["typed"], 2)

    def test_taps_and_sweeps_are_those_of_a_mouse(self):
        found = self._check("page.mjs tap", MOUSE_PROGRAM)
        self.assertTrue(found["tapped"].startswith("ready\n^[[<0;10;4M^[[<0;10;4m"))
        self.assertEqual((found["focus"], found["keyboard"]), ("", "input"))
        self.assertRegex(found["swept"], r"\^\[\[<65;5;\d+M")

    def test_the_page_connects_again_without_a_gap(self):
        found = self._check("reconnect.mjs", COUNTING_PROGRAM, "--scrollback", "10000")
        self.assertTrue(found["lost"].startswith("Not connected"))
        self.assertTrue(found["isFrozen"])
        self.assertEqual(found["status"], "")
        self.assertGreater(found["missed"], 0)
        self.assertGreater(found["count"], 60)

    def test_a_phone(self):
        options = ("--scrollback", "1000")
        found = self._check("page.mjs phone", PHONE_PROGRAM, *options, picture="-phone")
        self.assertEqual((found["readerKeys"], found["writerKeys"]), ("none", "flex"))
        self.assertEqual(found["width"], 390)
        self.assertEqual((found["focus"], found["focusAfter"]), ("input", "input"))
        self.assertEqual(found["typed"], "ls^?^[^I^[[A^[[D^Bz")
        self.assertGreater(found["repeated"], 3)
        self.assertGreater(found["back"], 3)
        self.assertTrue(found["end"])


if __name__ == "__main__":
    unittest.main()
