"""Tests of what one does every day with the page of vt100-share while a program runs in the
starting terminal: the wheel, sizes, typing that is taken back, the mouse, and holes in the
scrollback."""

import json
import os
import re
import shutil
import subprocess
import sys
import tempfile
import threading
import unittest

from sharing import MODULE, needs_websockets, python_path
from test_program import SHARE
from vt100.testing import Terminal

TESTS = os.path.dirname(os.path.abspath(__file__))

#: Shows what it reads on the alternate screen and, after Enter, on the main screen.
WHEEL_PROGRAM = f"""
stty -echo raw
exec {sys.executable} -c '
import os, sys
def show(text):
    sys.stdout.write(text.replace("\\x1b", "^["))
    sys.stdout.flush()
sys.stdout.write("\\x1b[?1049h\\x1b[?1h")
show("ready ")
data = ""
while "\\r" not in data:
    data = os.read(0, 100).decode()
    show(data.replace("\\r", ""))
sys.stdout.write("\\x1b[?1049l")
show("main ")
while True:
    show(os.read(0, 100).decode())
'
"""

SCROLLED_PROGRAM = r"""
stty -echo
seq 300
read -r line
printf 'got %s' "$line"
read -r line
"""

MOTION_PROGRAM = r"""
stty -echo raw
seq -f '%g\r' 60 | tr '\r' '\r'
printf '\033[H\033[J\033[?1003h\033[?1006hready '
exec cat -v
"""


class Started:
    """vt100-share in a terminal that reads commands from a file, and its addresses."""

    def __init__(self, folder, program, *options, rows=20, cols=40):
        shutil.copy(MODULE, os.path.join(folder, "vt100.wasm"))
        self.commands = os.path.join(folder, "commands")
        open(self.commands, "w").close()
        words = [*SHARE, "--write", "--page", folder, *options, "--", "sh", "-c", program]
        environment = {**os.environ, "PYTHONPATH": python_path()}
        self.terminal = Terminal(words, rows, 100, env=environment, timeout=30)
        self.terminal.wait_for("Press Enter to start.")
        self.urls = re.findall(r"http:\S+", self.terminal.screen.contents())
        self.terminal.resize(rows, cols)
        self.terminal.press("enter")
        self.is_over = False
        self.thread = threading.Thread(target=self._run)
        self.thread.start()

    def _run(self):
        with open(self.commands, encoding="utf-8") as file:
            while not self.is_over:
                self.terminal.read(0.02)
                line = file.readline()
                if line.startswith("resize"):
                    self.terminal.resize(*map(int, line.split()[1:]))
                elif line.startswith("type"):
                    self.terminal.send(json.loads(line[len("type") :]))

    def close(self):
        self.is_over = True
        self.thread.join()
        self.terminal.close()


@needs_websockets
@unittest.skipUnless(shutil.which("chromium"), "there is no chromium")
@unittest.skipUnless(shutil.which("node"), "there is no node")
@unittest.skipUnless(os.path.exists(MODULE), "there is no vt100.wasm")
class Page(unittest.TestCase):
    def check(self, name, program, *options):
        with tempfile.TemporaryDirectory() as folder:
            started = Started(folder, program, *options)
            try:
                command = ["node", os.path.join(TESTS, "daily.mjs"), name, *started.urls]
                environment = {**os.environ, "VT100_COMMANDS": started.commands}
                found = json.loads(subprocess.check_output(command, timeout=300, env=environment))
            finally:
                started.close()
        self.assertEqual(found["messages"], [])
        return found

    def test_the_wheel_sends_cursor_keys_on_the_alternate_screen(self):
        found = self.check("wheel", WHEEL_PROGRAM)
        self.assertEqual(found["down"], "ready ^[OB^[OB^[OB")
        self.assertEqual(found["up"], "ready ^[OB^[OB^[OB^[OA^[OA")
        self.assertEqual(found["shift"], found["up"] + "q")
        self.assertEqual(found["main"], "main m")

    def test_scrollback_and_selection_survive_other_sizes(self):
        found = self.check("resize", SCROLLED_PROGRAM, "--scrollback", "1000")
        self.assertEqual((found["before"], found["selected"]), ("262", "264"))
        self.assertEqual((found["after"], found["stillSelected"]), ("262", "264"))
        self.assertEqual(found["oldest"], "1")
        self.assertEqual(found["rows"][-2:], ["299", "300"])

    def test_typing_is_taken_back_and_allowed_again(self):
        found = self.check("typing", SCROLLED_PROGRAM, "--scrollback", "1000")
        self.assertTrue(found["isKept"])
        self.assertTrue(found["typed"].endswith("got y"))

    def test_motions_are_reported_once_for_a_cell_and_not_while_scrolled_back(self):
        found = self.check("motions", MOTION_PROGRAM, "--scrollback", "1000")
        reports = re.findall(r"<\d+;\d+;\d+[Mm]", found["moved"])
        self.assertEqual(reports[-2:], ["<35;5;4M", "<35;7;4M"])
        self.assertEqual(reports.count("<35;5;4M"), 1)
        self.assertNotRegex(found["back"], r";10;\d+[Mm]|<0;")
        self.assertEqual(found["focus"], "input")

    def test_another_token_begins_the_page_anew(self):
        found = self.check("token", SCROLLED_PROGRAM)
        self.assertEqual(
            (found["reader"], found["writer"], found["focus"]), ("false", "true", "input")
        )


@unittest.skipUnless(shutil.which("node"), "there is no node")
@unittest.skipUnless(os.path.exists(MODULE), "there is no vt100.wasm")
class Rows(unittest.TestCase):
    def test_after_a_hole_earlier_rows_are_discarded(self):
        code = f"""
            import {{ readFileSync }} from "node:fs";
            import {{ load }} from "{TESTS}/../../bindings/js/vt100.js";
            import {{ SharedScreen }} from "{TESTS}/../vt100_share/page/screen.js";
            let shown;
            const view = {{ attach: (screen) => (shown = screen), requestDraw() {{}} }};
            const screen = new SharedScreen(await load(readFileSync("{MODULE}")), view);
            const row = (number) => `${{number}}\\r\\n`;
            const rows = (...numbers) => Buffer.from(numbers.map(row).join(""));
            screen.redraw(5, 20, Buffer.from("x"));
            screen.scrolled(7, 2, 20, rows(7, 8));
            screen.scrolled(9, 1, 20, rows(9));
            const whole = shown.scrollbackLen;
            screen.scrolled(12, 2, 20, rows(12, 13));
            shown.setScrollback(9);
            console.log(JSON.stringify([whole, shown.scrollbackLen, shown.rows().slice(0, 3)]));
        """
        done = subprocess.run(
            ["node", "--input-type=module", "-e", code], stdout=subprocess.PIPE, check=True
        )
        self.assertEqual(json.loads(done.stdout), [3, 2, ["12", "13", "x"]])


if __name__ == "__main__":
    unittest.main()
