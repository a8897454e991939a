"""Tests of vt100-share --publish and vt100-share relay: processes that die and return, rights in
Redis, and faults."""

import asyncio
import os
import re
import signal
import subprocess
import unittest

import relaying
from relaying import Published, RedisServer, Relayed, free_port, needs_redis, until, within
from sharing import CHECKOUT, Client, Closed, needs_websockets, python_path
from test_program import SHARE, Run

#: The rights that docs/SECURITY.md recommends.
SECURITY = os.path.join(CHECKOUT, "docs", "SECURITY.md")

TOKENS = {"VT100_SHARE_READ": "r" * 20, "VT100_SHARE_WRITE": "w" * 20}


class Processes(Run):
    def launch(self, *words, **environment):
        process = subprocess.Popen(
            [*SHARE, *words],
            stdin=subprocess.DEVNULL,
            stdout=subprocess.PIPE,
            stderr=subprocess.PIPE,
            universal_newlines=True,
            env={**self.environment, **environment},
        )
        self.addCleanup(process.communicate)
        self.addCleanup(process.kill)
        return process

    def publish(self, server, *command, **environment):
        words = ["--headless", "--write", "--publish", server.url, "--", *command]
        return self.launch(*words, **environment)

    def relay(self, server, port, **environment):
        words = ["relay", "--write", "--port", str(port), server.url]
        return self.launch(*words, **{**TOKENS, **environment})

    def lines(self, process, *kinds):
        """Returns the lines with addresses that a process prints, by their kinds."""
        found = {}
        while len(found) < len(kinds):
            kind, _, rest = process.stdout.readline().partition(": ")
            found[kind] = rest.strip()
        self.assertEqual(set(found), set(kinds))
        return found

    def ended(self, process):
        """Waits for a process to end. Returns the status, and what it said."""
        _, errors = process.communicate(timeout=60)
        self.assertNotIn("Traceback", errors)
        return process.returncode, errors


@needs_redis
class Deaths(Processes):
    def run_with(self, server, check):
        async def run():
            try:
                await check(server)
            finally:
                while Client.writers:
                    Client.writers.pop().close()
                await asyncio.sleep(0)

        asyncio.run(run())

    async def viewer(self, port, token=TOKENS["VT100_SHARE_READ"]):
        """Returns a viewer of a relay, as soon as there is one."""
        while True:
            try:
                return await Client(port).open(token)
            except (Closed, OSError):
                await asyncio.sleep(0.05)

    def test_a_server_and_a_relay_that_are_killed_and_return(self):
        async def check(server):
            port = free_port()
            shared = self.publish(server, "cat")
            found = self.lines(shared, "relay", "watch", "type")
            command = r"VT100_SHARE_RELAY=([\w-]{24}) vt100-share relay --write "
            token = {"VT100_SHARE_RELAY": re.match(command, found["relay"])[1]}
            relay = self.relay(server, port, **token)
            viewer = await self.viewer(port, TOKENS["VT100_SHARE_WRITE"])
            await within(20, viewer.until_true(lambda: viewer.parser and not viewer.is_stale))
            await viewer.send(b"ifirst\r")
            await within(20, viewer.until("first\nfirst"))
            # The server dies, and returns with another program.
            shared.kill()
            await within(20, viewer.until_true(lambda: viewer.is_stale))
            self.assertIn("first", viewer.parser.contents())
            shared = self.publish(server, "sh", "-c", "echo second; cat", **token)
            self.lines(shared, "relay", "watch", "type")
            await within(20, viewer.until("second"))
            await within(20, viewer.until_true(lambda: not viewer.is_stale))
            self.assertNotIn("first", viewer.parser.contents())
            # The relay dies, and returns.
            relay.kill()
            with self.assertRaises(Closed):
                await within(20, viewer.until("never"))
            relay.wait()
            relay = self.relay(server, port, **token)
            viewer = await within(20, self.viewer(port, TOKENS["VT100_SHARE_WRITE"]))
            await within(20, viewer.until("second"))
            await within(20, viewer.until_true(lambda: not viewer.is_stale))
            await viewer.send(b"ithird\r")
            await within(20, viewer.until("third\nthird"))
            self.assertFalse(viewer.is_stale)
            # A signal ends the server, but not the relay.
            shared.send_signal(signal.SIGTERM)
            await within(20, viewer.until_true(lambda: viewer.is_stale))
            self.assertEqual(self.ended(shared)[0], 128 + signal.SIGTERM)
            self.assertIsNone(relay.poll())
            # The end of the program ends the relay with the same status.
            last = ["sh", "-c", "echo last; exit 9"]
            shared = self.publish(server, *last, **token)
            await within(20, viewer.until_end())
            self.assertEqual((viewer.status, viewer.is_stale), (9, False))
            self.assertIn("last", viewer.parser.contents())
            viewer.close()
            await asyncio.sleep(0)
            self.assertEqual(self.ended(shared)[0], 9)
            status, said = self.ended(relay)
            self.assertEqual(status, 9)
            self.assertIn("the program has ended with status 9", said)

        with RedisServer() as server:
            self.run_with(server, check)

    def test_a_signal_ends_a_relay(self):
        with RedisServer() as server:
            relay = self.launch("relay", server.url)
            self.lines(relay, "watch")
            relay.send_signal(signal.SIGTERM)
            self.assertEqual(self.ended(relay)[0], 128 + signal.SIGTERM)

    def test_a_server_ends_while_redis_is_out_of_reach(self):
        with RedisServer() as server:
            script = "read a; exit 6"
            shared = self.publish(server, "sh", "-c", script)
            found = self.lines(shared, "relay", "watch", "type")
            server.kill()

            async def finish(server):
                port, token = re.search(r":([0-9]+)/#(\S+)", found["type"]).groups()
                viewer = await self.viewer(int(port), token)
                await viewer.send(b"i\r")
                await within(20, viewer.until_end())

            self.run_with(server, finish)
            status, said = self.ended(shared)
            self.assertEqual(status, 6)
            self.assertIn("trying again", said)


@needs_redis
class Rights(unittest.TestCase):
    def test_the_documented_rights_suffice(self):
        with open(SECURITY, encoding="utf-8") as file:
            rules = [line.split() for line in file if line.startswith("ACL SETUSER ")]
        self.assertEqual(len(rules), 3)
        with RedisServer() as server:
            for words in rules:
                server.call(*(word.replace("PASSWORD", "secret") for word in words))
            asyncio.run(self._check(server))

    async def _check(self, server):
        command = ["sh", "-c", "stty -echo; exec cat"]
        name = "vt100-share"
        async with Published(server, command, name=name, user="share:secret") as shared:
            async with Relayed(server, name, None, "relay:secret") as relay:
                async with Relayed(server, name, user="typing:secret") as typing:
                    await until(lambda: not (relay.share.notes.is_stale or typing.share.notes.is_stale))
                    viewer = await relay.viewer()
                    writer = await typing.viewer(typing.tokens.write)
                    await writer.send(b"iword\r")
                    await within(20, viewer.until("word"))
                    await within(20, writer.until("word"))
                    await asyncio.sleep(1.2)
                    for place in (shared, relay, typing):
                        self.assertEqual([x for x in place.reports if "again" in x], [])
                    # A relay that only shows can neither write to the stream nor type.
                    for key in (name, name + ":rows", name + ":input"):
                        client = relaying.client_of(server, "relay:secret")
                        with self.assertRaises(client.errors):
                            await client.client.xadd(key, {"a": "b"})
                        await client.close()
                    client = relaying.client_of(server, "typing:secret")
                    with self.assertRaises(client.errors):
                        await client.client.xadd(name, {"a": "b"})
                    await client.close()


@needs_redis
class Faults(Processes):
    def check_both(self, pattern, url, **environment):
        """Checks the message of the server and of the relay."""
        pattern = f"^vt100-share: {pattern}[^\n]*\n$"
        for words in (["--headless", "--publish", url, "--", "true"], ["relay", url]):
            status, said = self.ended(self.launch(*words, **environment))
            self.assertEqual(status, 2, said)
            self.assertRegex(said, pattern)
            self.assertNotIn("secret", said)

    def test_no_redis(self):
        port = free_port()
        self.check_both(f"redis://127.0.0.1:{port}: .*{port}", f"redis://:secret@127.0.0.1:{port}")

    def test_wrong_addresses(self):
        for url in ("http://127.0.0.1/", "127.0.0.1", "redis://[", "redis://127.0.0.1:x", ""):
            with self.subTest(url):
                self.check_both("[^\n]*: not an address of Redis", url)

    def test_passwords(self):
        with RedisServer("--requirepass", "secret") as server:
            self.check_both("redis://127.0.0.1:[0-9]+/0: .*[Aa]uth", server.url)
            shared = self.publish(server, "true", REDISCLI_AUTH="secret")
            status, said = self.ended(shared)
            self.assertEqual(status, 0)
            self.assertEqual(said, "vt100-share: the program has ended with status 0\n")

    def test_a_key_that_is_no_stream(self):
        with RedisServer() as server:
            server.call("SET", "vt100-share", "text")
            self.check_both("redis://[^ ]+: ResponseError: WRONGTYPE", server.url)

    def test_errors_do_not_quote_the_screen(self):
        script = "while :; do printf '\\033[31mhidden '; sleep 0.02; done"
        with RedisServer() as server:
            shared = self.publish(server, "sh", "-c", script)
            for _ in range(2):
                server.call("CONFIG", "SET", "min-replicas-to-write", "1")
                self.assertRegex(
                    shared.stderr.readline(),
                    r"^vt100-share: redis://\S+: \w+: NOREPLICAS; trying again\n$",
                )
                server.call("CONFIG", "SET", "min-replicas-to-write", "0")
                self.assertRegex(shared.stderr.readline(), "connected again")
            shared.terminate()
            self.assertEqual(self.ended(shared), (128 + 15, ""))

    def test_a_relay_that_may_not_type_or_whose_port_is_in_use(self):
        with RedisServer() as server:
            status, said = self.ended(self.launch("relay", "--write", server.url))
            self.assertEqual(status, 2)
            self.assertRegex(said, r"^vt100-share: --write requires \$VT100_SHARE_RELAY[^\n]*\n$")
            status, said = self.ended(self.launch("relay", "--port", str(server.port), server.url))
            self.assertEqual(status, 2)
            self.assertRegex(said, "^vt100-share: cannot listen on [^\n]*\n$")


class Missing(Processes):
    def test_no_redis_package(self):
        os.mkdir(os.path.join(self.folder, "redis"))
        with open(os.path.join(self.folder, "redis", "__init__.py"), "w") as file:
            file.write("raise ImportError\n")
        publish = ["--headless", "--publish", "redis://x", "--", "true"]
        for words in (publish, ["relay", "redis://x"]):
            status, said = self.ended(self.launch(*words, PYTHONPATH=python_path(self.folder)))
            self.assertEqual(status, 2)
            self.assertRegex(said, "^vt100-share: the package redis, [^\n]*\n$")

    def test_tokens_that_can_be_guessed(self):
        for name in ("VT100_SHARE_READ", "VT100_SHARE_WRITE"):
            for token in ("short", "with a space in the middle", "\u00e9" * 20):
                status, said = self.ended(self.launch("--headless", "--", "true", **{name: token}))
                self.assertEqual(status, 2)
                self.assertRegex(said, rf"^vt100-share: \${name} must have [^\n]*\n$")

    def test_tokens_that_are_the_same(self):
        same = {"VT100_SHARE_READ": "a" * 20, "VT100_SHARE_WRITE": "a" * 20}
        process = self.launch("--headless", "--write", "--", "true", **same)
        said = "vt100-share: the tokens for reading and for writing must differ\n"
        self.assertEqual(self.ended(process), (2, said))

    @needs_websockets
    def test_the_program_gets_no_tokens_and_no_password(self):
        names = {name: "t" * 20 for name in (*TOKENS, "VT100_SHARE_RELAY", "REDISCLI_AUTH")}
        script = "env | grep -c tttt"
        path = os.path.join(self.folder, "out.cast")
        words = ["--headless", "--record", path, "--", "sh", "-c", script]
        self.ended(self.launch(*words, **names))
        with open(path, encoding="utf-8") as file:
            self.assertIn('"0\\r\\n"', file.read())


if __name__ == "__main__":
    unittest.main()
