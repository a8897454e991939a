"""Tests of what connections of vt100-share send, and what the server keeps of it."""

import asyncio
import socket
import sys
import time
import unittest
from unittest import mock

from sharing import Shared, frame, needs_websockets, slow
from vt100_share import _output


class Outputs(unittest.TestCase):
    """What a connection sends by itself, what it leaves to its transport, and what it keeps."""

    def setUp(self):
        self.sent, self.accepts = [], []
        self.transport, self.socket = mock.Mock(), mock.Mock()
        self.transport.is_closing.return_value = False
        self.transport.write.side_effect = self._transport
        self.transport.abort.side_effect = self._end
        self.transport.close.side_effect = self._end
        self.socket.send.side_effect = self._socket
        self.output = _output.Output(self.socket, self.transport)

    def _socket(self, data):
        count = self.accepts.pop(0) if self.accepts else 0
        if isinstance(count, type):
            raise count
        self.sent.append(bytes(data[:count]))
        return min(count, len(data))

    def _transport(self, data):
        self.sent.append(bytes(data))
        self.output.pause()

    def _end(self):
        self.transport.is_closing.return_value = True

    def test_a_socket_that_accepts_all(self):
        self.accepts = [100]
        self.output.write(b"frame")
        self.assertEqual((self.sent, self.output.is_empty), ([b"frame"], True))
        self.transport.write.assert_not_called()

    def test_a_little_goes_through_the_transport_and_the_rest_is_not_copied(self):
        frame = bytes(range(256)) * 400
        for first in (10, BlockingIOError):
            self.setUp()
            self.accepts = [first]
            self.output.write(frame)
            self.output.write(b"next")
            self.assertFalse(self.output.is_empty)
            self.assertLessEqual(len(b"".join(self.sent)), 10 + 4096)
            self.assertIs(self.output._parts[0].obj, frame)
            self.accepts = [50000, 0]
            self.output.resume()
            self.assertFalse(self.output.is_empty)
            self.accepts = [1 << 20, 2]
            self.output.resume()
            self.assertEqual(b"".join(self.sent), frame + b"next")
            self.output.resume()
            self.assertTrue(self.output.is_empty)

    def test_it_is_closed_when_all_has_been_sent(self):
        self.accepts = [1]
        self.output.write(bytes(10000))
        self.output.close()
        self.output.write(b"not sent")
        self.transport.close.assert_not_called()
        self.accepts = [1 << 20]

        async def resume():
            self.output.resume()
            self.transport.close.assert_not_called()
            await asyncio.sleep(0)

        asyncio.run(resume())
        self.transport.close.assert_called_once_with()
        self.assertEqual(b"".join(self.sent), bytes(10000))

    def test_the_other_end_has_gone(self):
        self.accepts = [BrokenPipeError, 100]
        self.output.write(b"frame")
        self.transport.abort.assert_called_once_with()
        self.output.write(b"frame")
        self.assertEqual(self.sent, [])

    def test_what_has_not_been_read(self):
        with socket.create_server(("127.0.0.1", 0)) as listening:
            other = socket.create_connection(listening.getsockname())
            one, _ = listening.accept()
        with one, other:
            one.setblocking(False)
            self.transport.get_write_buffer_size.return_value = 30
            output = _output.Output(one, self.transport)
            self.transport.write.side_effect = lambda data: output.pause()
            output.write(bytes(64 << 20))
            before = output.unread_len
            self.assertGreater(before, 1 << 20)
            end = time.monotonic() + 10
            while output.unread_len >= before - 100000:
                self.assertLess(time.monotonic(), end)
                other.recv(1 << 20)
            output.pause()
            self.transport.get_write_buffer_size.return_value = 0
            self.assertLess(output.unread_len, before)


@needs_websockets
class Silent(unittest.TestCase):
    """Viewers that read nothing, while the screen is a picture with many colors."""

    PICTURE = (
        "import random; random.seed(1); print('\\33[H' + ''.join('\\33[38;2;%d;%d;%dm#' % tuple(random.randbytes(3)) "
        "for _ in range(40 * 120)) + '\\33]2;drawn\\7', end='', flush=True); import time; time.sleep(60)"
    )

    async def _silent(self, shared, count):
        """Connects viewers that read nothing, and for which the system keeps little."""
        handshake = (
            b"GET /viewer HTTP/1.1\r\nHost: 127.0.0.1\r\nConnection: Upgrade\r\nUpgrade: websocket\r\n"
            b"Sec-WebSocket-Version: 13\r\nSec-WebSocket-Key: dGhlIHNhbXBsZSBub25jZQ==\r\n\r\n"
        )
        for number in range(count):
            while len(shared.server.connections) != number:  # others may not have gone yet
                await asyncio.sleep(0.01)
            before = set(shared.server.connections)
            _, writer = await slow(shared.port)
            while shared.server.connections == before:
                await asyncio.sleep(0.01)
            (connection,) = shared.server.connections - before
            connection._socket.setsockopt(socket.SOL_SOCKET, socket.SO_SNDBUF, 4096)
            writer.write(handshake + frame(2, b"t" + shared.tokens.read.encode()))
            while shared.share.viewer_count <= number and connection in shared.server.connections:
                await asyncio.sleep(0.01)

    def _run(self, check):
        async def run():
            program = [sys.executable, "-c", self.PICTURE]
            async with Shared(program, (40, 120)) as shared:
                while shared.share.title != b"drawn" or shared.share.cohort.has_changed:
                    await asyncio.sleep(0.01)
                await check(shared)

        asyncio.run(run())

    def test_they_share_the_rest_of_a_message(self):
        async def check(shared):
            await self._silent(shared, 10)
            found = [connection._output for connection in shared.server.connections]
            self.assertEqual([output.is_empty for output in found], [False] * 10)
            frames = {id(part.obj) for output in found for part in output._parts if len(part.obj) > 50000}
            self.assertEqual(len(frames), 1)
            size = shared.server.backlog._size
            self.assertGreater(size, 50000)
            self.assertLess(size, 200000)

        self._run(check)

    def test_those_that_have_waited_longest_are_cut_off(self):
        async def check(shared):
            shared.server.backlog = _output.Backlog(20000)
            await self._silent(shared, 1)
            while shared.server.connections:
                await asyncio.sleep(0.01)
            self.assertEqual((shared.server.backlog._size, shared.share.viewer_count), (0, 0))

        self._run(check)


class Backlogs(unittest.TestCase):
    def setUp(self):
        self.given_up = []
        self.backlog = _output.Backlog(100)
        self.viewers = [lambda number=number: self.given_up.append(number) for number in range(9)]

    def test_viewers_share_a_frame(self):
        frame = bytes(60)
        for viewer in self.viewers:
            self.backlog.hold(viewer, frame)
        self.assertEqual(self.given_up, [])
        self.backlog.release(self.viewers[0])
        self.backlog.hold(self.viewers[0], bytes(bytearray(40)))
        self.assertEqual(self.given_up, [])

    def test_who_has_waited_longest_is_given_up(self):
        for viewer in self.viewers[:4]:
            self.backlog.hold(viewer, bytes(bytearray(25)))
        self.backlog.release(self.viewers[1])
        self.backlog.hold(self.viewers[4], bytes(bytearray(60)))
        self.assertEqual(self.given_up, [0, 2])
        self.assertEqual(self.backlog._size, 85)
        for viewer in self.viewers:
            self.backlog.release(viewer)
        self.assertEqual((self.backlog._size, self.backlog._counts), (0, {}))



if __name__ == "__main__":
    unittest.main()
