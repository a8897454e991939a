"""Tests that nothing that a stranger sends reaches the terminal of vt100-share or its standard error."""

import contextlib
import os
import re
import signal
import socket
import unittest

from sharing import needs_websockets
from test_program import Run

HANDSHAKE = (
    b"GET /viewer HTTP/1.1\r\nHost: 127.0.0.1\r\nConnection: Upgrade\r\nUpgrade: websocket\r\n"
    b"Sec-WebSocket-Version: 13\r\nSec-WebSocket-Key: dGhlIHNhbXBsZSBub25jZQ==\r\n"
)

#: A close frame and a ping, both masked.
CLOSE, PING = b"\x88\x80\0\0\0\0", b"\x89\x80\0\0\0\0"


def request(line, host=b"127.0.0.1"):
    return line + b"\r\nHost: " + host + b"\r\n\r\n"


#: The status of what the package `websockets` replies to a malformed handshake.
REFUSED = range(400, 600)

#: What a stranger may send, and the statuses of the response, which may be none.
ATTACKS = (
    (request(b"GET //[ HTTP/1.1"), [404]),
    (request(b"GET //[x]/ HTTP/1.1"), [404]),
    (request(b"GET / HTTP/1.1", b"["), [421]),
    (request(b"GET / HTTP/1.1", b"\xff"), [421]),
    (request(b"GET /\xff HTTP/1.1"), [None]),
    (request(b"HEAD / HTTP/1.1"), [200]),
    (request(b"HEAD / HTTP/1.0"), [200]),
    (request(b"GET / HTTP/1.0"), [200]),
    (b"GET / HTTP/1.0\r\n\r\n", [421]),
    (request(b"POST / HTTP/1.1"), [405]),
    (request(b"OPTIONS * HTTP/1.1"), [405]),
    (request(b"GET / HTTP/2.0"), [None]),
    (request(b"GET  / HTTP/1.1"), [None]),
    (b"\x16\x03\x01\x02\0\x01\r\n\r\n", [None]),
    (bytes(range(256)) * 20 + b"\r\n\r\n", [None]),
    (b"GET / HTTP/1.1\r\n" + b"a: b\r\n" * 300 + b"\r\n", [None]),
    (b"GET / HTTP/1.1\r\nHost : 127.0.0.1\r\n\r\n", [None]),
    (HANDSHAKE.replace(b"dGhl", b"\xff\xfe") + b"\r\n", REFUSED),
    (HANDSHAKE.replace(b"dGhl", b"!!!!") + b"\r\n", REFUSED),
    (HANDSHAKE.replace(b"13", b"99") + b"\r\n", REFUSED),
    (HANDSHAKE + b"Sec-WebSocket-Extensions: \xff; a=\"\xfe\"\r\n\r\n", [None]),
    (HANDSHAKE + b"Sec-WebSocket-Extensions: x; y=\"\r\n\r\n", REFUSED),
    (HANDSHAKE + b"Sec-WebSocket-Protocol: \xff\r\n\r\n", [101, None]),
    (HANDSHAKE + b"\r\n" + CLOSE + PING * 20, [101]),
    (HANDSHAKE + b"\r\n" + b"\xff" * 100, [101]),
    (HANDSHAKE + b"\r\n" + b"\x82\xfe\xff\xff" + bytes(200), [101]),
    (HANDSHAKE + b"\r\n" + PING * 2000, [101]),
)


@needs_websockets
class Silence(Run):
    def _ask(self, port, data):
        """Returns the status of the response to a stranger, or None."""
        with socket.create_connection(("127.0.0.1", port), timeout=20) as one:
            received = b""
            with contextlib.suppress(ConnectionError):
                one.sendall(data)
                while chunk := one.recv(65536):
                    received += chunk
                    if b" 101 " in received[:20]:
                        one.sendall(PING * 3 + CLOSE + PING)
        found = re.match(rb"HTTP/1\.1 ([0-9]{3}) ", received)
        self.assertTrue(found or not received, received[:60])
        if data.startswith(b"HEAD"):
            self.assertRegex(received, rb"\r\nContent-Length: [1-9][0-9]*\r\n")
            self.assertTrue(received.endswith(b"\r\n\r\n"))
        return int(found[1]) if found else None

    def _check(self, **more):
        share = self.start("--", "sleep", "100", **more)
        port = int(re.search(r":([0-9]+)/#", share.stdout.readline())[1])
        for data, statuses in ATTACKS:
            with self.subTest(data[-60:]):
                self.assertIn(self._ask(port, data), statuses)
        share.send_signal(signal.SIGTERM)
        _, said = share.communicate(timeout=60)
        self.assertRegex(said, r"^vt100-share: connections that were turned away: [0-9]+\n$")
        return int(said.split()[-1])

    def test_strangers_are_not_heard(self):
        self.assertGreaterEqual(self._check(), 10)

    def test_without_uvloop(self):
        with open(os.path.join(self.folder, "uvloop.py"), "w", encoding="utf-8") as file:
            file.write("raise ImportError\n")
        path = f"{self.folder}{os.pathsep}{self.environment['PYTHONPATH']}"
        self._check(env={**self.environment, "PYTHONPATH": path})


if __name__ == "__main__":
    unittest.main()
