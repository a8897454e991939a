"""Tests of the terminal type of programs: whether those that run as other users, on other machines
and in other terminals know it, and whether programs understand keys and the mouse."""

import contextlib
import glob
import os
import pwd
import re
import shutil
import socket
import subprocess
import tempfile
import time
import unittest

from sharing import needs_websockets
from test_local import Started, written

TEXT = "".join(f"row {row}\n" for row in range(200))

#: An SSH server, and a library that gives it a user with another home directory.
DROPBEAR = "/usr/sbin/dropbear"
NSS_WRAPPER = next(iter(glob.glob("/usr/lib/*/libnss_wrapper.so")), None)


def has(*programs):
    """Leaves out a test if a program is missing."""
    missing = [name for name in programs if shutil.which(name) is None]
    return unittest.skipIf(missing, f"there is no {' and no '.join(missing)}")


def may_sudo():
    """Returns whether sudo runs programs without a password."""
    if shutil.which("sudo") is None:
        return False
    ran = subprocess.run(["sudo", "-n", "true"], stdin=subprocess.DEVNULL, stderr=subprocess.DEVNULL)
    return ran.returncode == 0


@needs_websockets
@unittest.skipUnless(os.path.exists("/lib/terminfo/t/tmux-256color"), "there is no tmux-256color")
class Shell(Started):
    """A shell in a terminal whose keys are those of xterm, which are also those of viewers."""

    count = 0

    def shell(self, *options, rows=24, cols=80):
        self.environment.update(HOME=self.folder, LC_ALL="C.UTF-8", PS1="ok> ")
        words = [*options, "--", "sh", "-c", 'cd "$HOME" && exec sh']
        terminal = self.start_here(*words, rows=rows, cols=cols, term="xterm-256color")
        terminal.wait_for("ok>")
        return terminal

    def run_in(self, terminal, command):
        """Runs a command, and returns its output."""
        self.count += 1
        terminal.send(f"clear; {command}; echo en''d{self.count}\r")
        end = f"end{self.count}"
        return terminal.wait_for(end).contents().split(end)[0].strip()

    def test_the_entry_is_one_that_others_have(self):
        terminal = self.shell()
        self.assertEqual(self.run_in(terminal, "echo $TERM"), "tmux-256color")
        self.assertEqual(self.run_in(terminal, "env -i TERM=$TERM tput colors"), "256")

    @unittest.skipUnless(may_sudo(), "there is no sudo, or it asks for a password")
    def test_sudo(self):
        self.assertEqual(self.run_in(self.shell(), "sudo -n tput colors"), "256")

    def test_another_entry(self):
        terminal = self.shell("--term", "vt100")
        self.assertEqual(self.run_in(terminal, "echo $TERM; tput cols"), "vt100\n80")
        terminal = self.shell("--term", "caldrosk-256color")
        self.assertEqual(self.run_in(terminal, "tput khome | cat -v"), "^[OH")

    def test_a_name_that_no_system_has(self):
        terminal = self.shell("--term", "no-such")
        self.assertEqual(self.run_in(terminal, "printf '\\033[H\\033[J'; echo $TERM"), "no-such")

    def test_keys_are_those_of_the_entry(self):
        terminal = self.shell()
        terminal.send("stty raw -echo; clear; printf ready; exec cat -v\r")
        terminal.wait_for(lambda screen: screen.contents() == "ready")
        expected = "ready"
        for sent, read in (
            ("\x1b[H", "^[[1~"),
            ("\x1bOF", "^[[4~"),
            ("\x1b[A", "^[[A"),
            ("\x1bOP", "^[OP"),
            ("\x1b[1;5A", "^[[1;5A"),
            ("\x1b[200~\x1b[H\x1b[201~", "^[[200~^[[H^[[201~"),
        ):
            terminal.send(sent)
            expected += read
            terminal.wait_for(lambda screen: screen.contents() == expected)

    @has("less")
    def test_less(self):
        path = written(self.folder, "text", TEXT)
        terminal = self.shell()
        terminal.send(f"less {path}\r")
        terminal.wait_for("row 0\nrow 1\n")
        terminal.press("end")
        terminal.wait_for("row 199\n")
        terminal.press("home")
        terminal.wait_for("row 0\nrow 1\n")
        terminal.press("page_down", "q")
        terminal.wait_for("ok>")

    @has("dialog")
    def test_dialog(self):
        terminal = self.shell()
        terminal.send("dialog --inputbox title 10 40 hello 2>out\r")
        terminal.wait_for("┌───")
        terminal.wait_for("hello", accept_old=True)
        terminal.press("home", "a", "end", "z", "home", "delete")
        terminal.wait_for("helloz")
        terminal.press("enter")
        terminal.wait_for("ok>")

    @has("vim")
    def test_vim(self):
        path = written(self.folder, "text", TEXT)
        terminal = self.shell()
        terminal.send(f"vim -u NONE -N -i NONE {path}\r")
        terminal.wait_for("row 1\n")
        terminal.press("down", "end", "i", "right", "X", "home", "Y", "escape")
        terminal.wait_for("Yrow 1X")
        terminal.send(":q!\r")
        terminal.wait_for("ok>")

    @has("mc")
    def test_mc_and_its_mouse(self):
        for name in ("alpha", "beta", "gamma"):
            os.mkdir(os.path.join(self.folder, name))
        terminal = self.shell()
        terminal.send("mc -u . .\r")
        terminal.wait_for("10Quit")
        self.assertIn("│/alpha", terminal.screen.contents())
        [(row, col), *_] = terminal.screen.find("/gamma")
        terminal.click(row, col)
        terminal.press("f8")
        terminal.wait_for(re.compile('Delete directory.*"gamma"', re.DOTALL))
        terminal.press("escape", "escape", "f10")
        terminal.wait_for("ok>")

    @has("htop")
    def test_htop(self):
        terminal = self.shell()
        terminal.send("htop\r")
        terminal.wait_for("F10Quit")
        terminal.press("f1")
        terminal.wait_for("Released under the GNU GPL")
        terminal.press("x", "f10")
        terminal.wait_for("ok>")

    @has("tmux")
    def test_tmux_inside(self):
        terminal = self.shell()
        terminal.send(
            "unset TMUX; tmux -S t -f /dev/null new-session "
            "'stty -echo raw; printf ready; cat -v'\r"
        )
        terminal.wait_for("ready")
        for key, read in (("home", "ready^[[1~"), ("f1", "^[OP"), ("ctrl-up", "^[[1;5A")):
            terminal.press(key)
            terminal.wait_for(read)
        subprocess.run(["tmux", "-S", os.path.join(self.folder, "t"), "kill-server"], check=True)
        terminal.wait_for("ok>")

    @has("ssh", DROPBEAR, "ssh-keygen")
    @unittest.skipUnless(NSS_WRAPPER, "there is no libnss_wrapper.so")
    def test_ssh(self):
        with server_of_ssh(self.folder) as command:
            terminal = self.shell()
            shown = self.run_in(terminal, f"{command} 'echo $TERM; tput colors' 2>err")
            with open(os.path.join(self.folder, "err"), encoding="utf-8") as file:
                self.assertEqual(shown, "tmux-256color\n256", file.read())


def home_with_key(room):
    """Makes a home directory of the user that accepts a new key. Returns the variables with which a
    program finds it."""
    home = os.path.join(room, "home")
    os.makedirs(os.path.join(home, ".ssh"), mode=0o700)
    key = ["ssh-keygen", "-q", "-t", "ed25519", "-N", "", "-f", os.path.join(room, "user")]
    subprocess.run(key, check=True)
    shutil.copy(os.path.join(room, "user.pub"), os.path.join(home, ".ssh", "authorized_keys"))
    user = pwd.getpwuid(os.getuid())
    entry = f"{user.pw_name}:x:{user.pw_uid}:{user.pw_gid}::{home}:/bin/sh\n"
    passwords = written(room, "passwd", entry)
    wrapper = {"NSS_WRAPPER_PASSWD": passwords, "NSS_WRAPPER_GROUP": "/etc/group"}
    return {**os.environ, **wrapper, "LD_PRELOAD": NSS_WRAPPER}


@contextlib.contextmanager
def server_of_ssh(folder):
    """Starts an SSH server on this machine. Yields a command that runs another one there."""
    room = tempfile.mkdtemp(dir=folder)
    environment = home_with_key(room)
    with socket.socket() as one:
        one.bind(("127.0.0.1", 0))
        port = one.getsockname()[1]
    key = os.path.join(room, "host")
    subprocess.run(["dropbearkey", "-t", "ed25519", "-f", key], check=True, capture_output=True)
    words = [DROPBEAR, "-F", "-s", "-r", key, "-p", f"127.0.0.1:{port}", "-P", f"{room}/pid"]
    server = subprocess.Popen(words, env=environment, stderr=subprocess.DEVNULL)
    try:
        wait_for_port(port)
        yield (
            f"ssh -F none -t -p {port} -i {room}/user -o StrictHostKeyChecking=no "
            f"-o UserKnownHostsFile={room}/known -o LogLevel=ERROR 127.0.0.1"
        )
    finally:
        server.kill()
        server.wait()


def wait_for_port(port):
    end = time.monotonic() + 20
    while True:
        with contextlib.suppress(OSError), socket.create_connection(("127.0.0.1", port), 1):
            return
        if time.monotonic() > end:
            raise AssertionError("the server does not start")
        time.sleep(0.05)


if __name__ == "__main__":
    unittest.main()
