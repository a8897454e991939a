"""Programs that run in a pseudoterminal.

    program = Program(["cat"], 24, 80, dict(os.environ))
    program.type(b"hello\\r")
    program.flush()

Requires pseudoterminals, which only POSIX systems have.
"""

from __future__ import annotations

import errno
import fcntl
import os
import pty
import struct
import subprocess
import termios
import time
from typing import Mapping, Optional, Sequence

from . import session

#: How long `Program.kill` waits for processes to end by themselves, in seconds.
_GRACE = 1.0

#: The number of bytes that are written to the terminal at a time. A terminal in line mode drops the
#: end of a longer write if its line is full.
_CHUNK = 256

#: The number of bytes that are read from the terminal at a time. A pseudoterminal of Linux returns
#: no more.
_READ = 4096


class Program:
    """A program in a pseudoterminal, which is the controlling terminal of its session.

    `command` is the program and its arguments, `env` its environment and `cwd` its directory. Raises
    `OSError` if the program cannot be started. `file` is the descriptor of the terminal, which does
    not block, or -1 once the terminal is closed.
    """

    file = -1

    def __init__(
        self,
        command: Sequence[str],
        rows: int,
        cols: int,
        env: Mapping[str, str],
        cwd: Optional[str] = None,
    ) -> None:
        self._unsent = bytearray()
        self.file, other_end = pty.openpty()
        try:
            os.set_blocking(self.file, False)
            self.resize(rows, cols)
            self._process = subprocess.Popen(
                command,
                stdin=other_end,
                stdout=other_end,
                stderr=other_end,
                cwd=cwd,
                env=env,
                start_new_session=True,
                preexec_fn=self.prepare,
            )
        except BaseException:
            self._close_file()
            raise
        finally:
            os.close(other_end)

    def prepare(self) -> None:
        """Makes the terminal the controlling terminal of the program. Called in the program's own
        process, before the program starts."""
        fcntl.ioctl(0, termios.TIOCSCTTY, 0)

    @property
    def command(self) -> Sequence[str]:
        """The program and its arguments."""
        words: Sequence[str] = self._process.args  # type: ignore[assignment]
        return words

    @property
    def status(self) -> Optional[int]:
        """The exit status of the program, or the negated number of the signal that ended it. None
        while the program runs."""
        return self._process.poll()

    def wait(self, seconds: float) -> int:
        """Waits for the end of the program, and returns its `status`. Raises
        `subprocess.TimeoutExpired` after the given number of seconds."""
        return self._process.wait(seconds)

    def resize(self, rows: int, cols: int) -> None:
        """Changes the size of the terminal, of which the system informs the program by
        SIGWINCH."""
        fcntl.ioctl(self.file, termios.TIOCSWINSZ, struct.pack("HHHH", rows, cols, 0, 0))

    def read(self, count: int = _READ) -> Optional[bytes]:
        """Returns at most `count` bytes of output, none at its end, or None if there are none
        yet."""
        try:
            return os.read(self.file, count)
        except BlockingIOError:
            return None
        except OSError as error:
            if error.errno != errno.EIO:  # what Linux reports once the other end is closed
                raise
            return b""

    def type(self, data: bytes) -> None:
        """Adds input that `flush` sends to the program."""
        self._unsent += data

    @property
    def unsent_len(self) -> int:
        """The number of bytes of input that have not been sent."""
        return len(self._unsent)

    def drop_input(self) -> None:
        """Drops the input that has not been sent."""
        self._unsent.clear()

    def flush(self) -> None:
        """Sends as much of the input as the terminal accepts. Drops the input if no process has the
        terminal open."""
        try:
            while self._unsent:
                del self._unsent[: os.write(self.file, self._unsent[:_CHUNK])]
        except BlockingIOError:
            pass
        except OSError:
            self.drop_input()

    def hang_up(self) -> None:
        """Closes the terminal. The system sends SIGHUP to the program and to the processes in the
        foreground; others that the program has left live on. May be called more than once."""
        if self.file >= 0:
            self._close_file()

    def kill(self) -> None:
        """Closes the terminal. Kills the program, and the processes that it has left in its
        session, if that does not end them within one second. May be called more than once."""
        if self.file < 0:
            return
        left = session.members(self._process.pid)
        self._close_file()
        end = time.monotonic() + _GRACE
        try:
            self._process.wait(_GRACE)
        except subprocess.TimeoutExpired:
            self._process.kill()
            self._process.wait()
        session.end(left, end)

    def _close_file(self) -> None:
        os.close(self.file)
        self.file = -1
        self.drop_input()
