"""serve.py FOLDER KIND VIEWERS SECONDS PATIENCE RATE STREAM..: a server of vt100-share with the program play.py.

KIND is `rounds`, or `broadcast` for a server that sends each viewer all output at once. Writes its address and token to
FOLDER/address, the time of each message to FOLDER/log, and the last screen, the numbers of open files before and after,
and the longest delay of the event loop in seconds to FOLDER/final.
"""
import asyncio
import json
import os
import struct
import sys

from vt100_share import _cohort, _loop, _messages, _server, _share, _site, _viewers
from vt100_share._program import Program

from viewers import key_of

HERE = os.path.dirname(os.path.abspath(__file__))


class Log:
    """Says when the program has written which messages: it adds to FOLDER/stamps when it has written how many bytes."""

    def __init__(self):
        self._file = open("log", "ab", buffering=0)
        self._stamps = open("stamps", "rb", buffering=0)
        self._at, self._stamp = 0, (0, 0)

    def read(self, count):
        """Counts bytes of the program. Returns when it has written the first of them."""
        while self._stamp[0] <= self._at and (data := self._stamps.read(16)):
            self._stamp = struct.unpack("<QQ", data)
        self._at += count
        return self._stamp[1]

    def note(self, message, oldest):
        self._file.write(struct.pack("<QQ", key_of(message), oldest))
        return message


class Cohort(_share.Cohort):
    """A cohort that notes its messages, with the time of the oldest byte that a viewer of the version lacks."""

    def __init__(self, *arguments):
        super().__init__(*arguments)
        self.log, self._oldest, self._waiting = Log(), {}, 0

    def process(self, data):
        oldest = self.log.read(len(data))
        self._waiting = self._waiting or oldest
        super().process(data)

    def advance(self):
        before = self.version
        super().advance()
        if self.version > before:
            self._oldest[before] = self._waiting
            self._oldest.pop(before - _cohort.KEPT, None)
        self._waiting = 0

    def _message(self, version):
        return self.log.note(super()._message(version), self._oldest.get(version, 0))


class Broadcast(_share.Share):
    """Sends all output to all viewers at once."""

    def _process(self, data):
        self.cohort.parser.process(data)
        log = self.cohort.log
        message = log.note(_messages.update(data), log.read(len(data)))
        for viewer in self._viewers:
            viewer.send_screen(message, 0)

    def offer(self, viewer, is_forced=False):
        if viewer.version is None:
            viewer.send_screen(_messages.redraw(24, 80, b""), 0)
        if self.is_final and not viewer.has_end:
            viewer.has_end = True
            viewer.send(_messages.ended(self.status))


async def connect_once(server, port):
    """Has the event loop open what it opens with the first connection."""
    _, writer = await asyncio.open_connection("127.0.0.1", port)
    writer.close()
    await writer.wait_closed()
    while server.connections:
        await asyncio.sleep(0.01)


class Pulse:
    """Measures for how long the event loop does not come to a timer."""

    def __init__(self):
        self.longest = 0.0
        self._loop = asyncio.get_running_loop()
        self._beat(self._loop.time())

    def _beat(self, due):
        self.longest = max(self.longest, self._loop.time() - due)
        due = self._loop.time() + 0.05
        self._loop.call_at(due, self._beat, due)


def open_files():
    return len(os.listdir("/proc/self/fd"))


async def serve(kind, viewers, arguments):
    tokens = _viewers.Tokens(False)
    server = _server.Server(_site.Site({}, "127.0.0.1", []), tokens, viewers)
    port = await server.start("127.0.0.1", 0, print)
    await connect_once(server, port)
    program = Program([sys.executable, os.path.join(HERE, "play.py"), *arguments], 24, 80)
    share = server.share = (Broadcast if kind == "broadcast" else _share.Share)(program, 24, 80)
    pulse, before = Pulse(), open_files() - 2  # without the terminal and the socket that listens
    with open("address.new", "w", encoding="utf-8") as file:
        file.write(f"{port} t{tokens.read}")
    os.rename("address.new", "address")
    await share.ended.wait()
    await server.close()
    program.kill()
    final = [share.cohort.parser.state_formatted(), before, open_files(), pulse.longest]
    with open("final", "w", encoding="utf-8") as file:
        json.dump(final, file)


if __name__ == "__main__":
    os.chdir(sys.argv[1])
    open("stamps", "w").close()
    _share.Cohort = Cohort
    _loop.run(serve(sys.argv[2], int(sys.argv[3]), sys.argv[4:]))
