"""Tests of what vt100-share serves over HTTP: under which names, with which headers, and what the page
does not contain."""

import gzip
import os
import re
import tempfile
import unittest
import unittest.mock

from vt100_share import _site
from vt100_share._site import VIEWER, Site, page_files, public_address

PAGE = {"/": ("text/html", b"page")}


class Headers:
    """The headers of a request."""

    def __init__(self, **headers):
        self.headers = headers

    def get_all(self, name):
        return [value for key, value in self.headers.items() if key == name and value is not None]


class Requests(unittest.TestCase):
    def setUp(self):
        self.site = Site(PAGE, "box.example", ["https://term.example.org/", "http://10.0.0.9:80/x"])

    def status(self, path, host, origin=None):
        """Returns the status of the response, or None if a WebSocket is accepted."""
        found = self.site.respond("GET", path, Headers(Host=host, Origin=origin))
        return None if found is None else found.status

    def test_names_of_the_server(self):
        for host in (
            "127.0.0.1:80", "[::1]:80", "192.168.7.9", "localhost", "LocalHost:8022",
            "box.example:8022", "term.example.org", "TERM.example.org:443",
        ):
            with self.subTest(host):
                self.assertEqual(self.status("/", host), 200)
                self.assertIsNone(self.status(VIEWER, host))
        for host in (
            "evil.example", "example.org", "box.example.evil.example", "evil-localhost",
            "term.example.org.", "term.example.org@evil.example", "", "[", "127.0.0.1.evil.example",
        ):
            with self.subTest(host):
                self.assertEqual(self.status("/", host), 421)
                self.assertEqual(self.status(VIEWER, host), 421)

    def test_pages_that_may_connect(self):
        public = "https://term.example.org"
        for host, origin, status in (
            ("term.example.org", public, None),
            ("127.0.0.1:8022", public, None),
            ("127.0.0.1:8022", "http://10.0.0.9:80", None),
            ("box.example:8022", "http://box.example:8022", None),
            ("box.example:8022", "http://box.example", 403),
            ("box.example:8022", "https://box.example:8022", 403),
            ("term.example.org", public + ".evil.example", 403),
            ("term.example.org", "https://example.org", 403),
            ("127.0.0.1:8022", "http://127.0.0.1:8023", 403),
            ("127.0.0.1:8022", "null", 403),
        ):
            with self.subTest(host=host, origin=origin):
                self.assertEqual(self.status(VIEWER, host, origin), status)

    def test_headers_of_every_response(self):
        for path, host, origin in (
            ("/", "localhost", None),
            ("/missing", "localhost", None),
            ("/", "evil.example", None),
            (VIEWER, "localhost", "http://evil.example"),
        ):
            response = self.site.respond("GET", path, Headers(Host=host, Origin=origin))
            headers = dict(response.headers)
            rules = (rule.split() for rule in headers["Content-Security-Policy"].split(";"))
            policy = {name: values for name, *values in rules}
            own, none = ["'self'"], ["'none'"]
            with self.subTest(response.status):
                self.assertEqual(policy.pop("script-src"), [*own, "'wasm-unsafe-eval'"])
                self.assertEqual((policy.pop("style-src"), policy.pop("connect-src")), (own, own))
                self.assertEqual(policy.pop("img-src"), ["data:"])
                self.assertTrue({"default-src", "frame-ancestors", "base-uri"} <= set(policy))
                self.assertTrue(all(values == none for values in policy.values()), policy)
                self.assertEqual(headers["X-Frame-Options"], "DENY")
                self.assertEqual(headers["Referrer-Policy"], "no-referrer")
                self.assertEqual(headers["X-Content-Type-Options"], "nosniff")
                self.assertEqual(headers["Cross-Origin-Opener-Policy"], "same-origin")
                self.assertEqual(headers["Cross-Origin-Resource-Policy"], "same-origin")
                self.assertEqual(headers["Connection"], "close")
                is_file = response.status == 200
                self.assertEqual(headers["Cache-Control"], "no-cache" if is_file else "no-store")
                self.assertNotIn("Set-Cookie", headers)


class Files(unittest.TestCase):
    """How often, and in which form, a browser gets a file."""

    BODY = b"body { color: red }" * 20

    def setUp(self):
        files = {"/": ("text/html", self.BODY), "/short": ("text/html", b"x")}
        self.site = Site(files, "127.0.0.1", [])

    def ask(self, path="/", method="GET", **headers):
        given = {name.replace("_", "-"): value for name, value in headers.items()}
        response = self.site.respond(method, path, Headers(Host="localhost", **given))
        self.assertEqual(int(dict(response.headers).get("Content-Length", 0)), len(response.body))
        return response.status, dict(response.headers), response.body

    def test_a_browser_that_has_the_file_does_not_get_it_again(self):
        _, headers, body = self.ask()
        self.assertEqual(body, self.BODY)
        tag = headers["ETag"]
        for known in (tag, f'"other", {tag}'):
            status, again, body = self.ask(If_None_Match=known)
            self.assertEqual((status, again["ETag"], body), (304, tag, b""))
        for known in (tag[:-2], '"other"', "", "*x"):
            self.assertEqual(self.ask(If_None_Match=known)[0], 200)
        other = Site({"/": ("text/html", self.BODY + b" ")}, "127.0.0.1", [])
        response = other.respond("GET", "/", Headers(Host="localhost", **{"If-None-Match": tag}))
        self.assertEqual(response.status, 200)

    def test_files_are_compressed_for_those_that_accept_it(self):
        for accepted in ("gzip", "gzip, deflate, br", "br;q=1.0, GZIP;q=0.8", "deflate,gzip ; q=0.5"):
            status, headers, body = self.ask(Accept_Encoding=accepted)
            with self.subTest(accepted):
                self.assertEqual((status, headers["Content-Encoding"]), (200, "gzip"))
                self.assertLess(len(body), len(self.BODY) // 3)
                self.assertEqual(gzip.decompress(body), self.BODY)
                self.assertEqual(headers["Vary"], "Accept-Encoding")
        for accepted in (None, "", "br", "xgzip", "gzip;q=0", "gzip; q=0.000, br"):
            _, headers, body = self.ask(Accept_Encoding=accepted)
            with self.subTest(accepted):
                self.assertNotIn("Content-Encoding", headers)
                self.assertEqual(body, self.BODY)
        self.assertNotIn("Content-Encoding", self.ask("/short", Accept_Encoding="gzip")[1])

    def test_methods(self):
        self.assertEqual(self.ask(method="HEAD")[0], 200)
        for method, path in (("POST", "/"), ("HEAD", VIEWER), ("OPTIONS", VIEWER)):
            status, headers, _ = self.ask(path, method)
            self.assertEqual((status, headers["Allow"]), (405, "GET, HEAD"))

    def test_targets(self):
        for target, status in (("/?x", 200), ("/#x", 200), ("//[", 404), ("//localhost/", 404), ("*", 404)):
            self.assertEqual(self.ask(target)[0], status, target)


class Addresses(unittest.TestCase):
    def test_public_addresses(self):
        for text in ("https://term.example.org/", "http://10.0.0.9:80/x", "http://[::1]:8022/"):
            self.assertEqual(public_address(text), text)
        self.assertEqual(public_address("https://term.example.org"), "https://term.example.org/")
        for text in (
            "notaurl", "term.example.org", "http://[", "http://", "https://:80/", "ftp://x/", "//x/",
            "http://x:99999/", "http://x:0/", "http://user@x/", "http://x/?a", "http://x/#a", "http://x/\x1b", "",
        ):
            with self.subTest(text), self.assertRaises(ValueError):
                public_address(text)

    def test_a_public_address_with_the_usual_port(self):
        site = Site(PAGE, "127.0.0.1", ["https://a.example:443/", "http://b.example:80/", "http://c.example:443/"])
        for origin, status in (
            ("https://a.example", None), ("http://b.example", None), ("https://a.example:443", None),
            ("http://c.example", 403), ("http://a.example", 403),
        ):
            found = site.respond("GET", VIEWER, Headers(Host="127.0.0.1", Origin=origin))
            self.assertEqual(found and found.status, status, origin)


class Page(unittest.TestCase):
    def setUp(self):
        with tempfile.TemporaryDirectory() as folder:
            for name in ("vt100.wasm", "vt100.js", "keys.js", "mouse.js"):
                with open(os.path.join(folder, name), "wb"):
                    pass
            files = page_files(folder)
        self.texts = {
            path: body.decode() for path, (kind, body) in files.items() if "wasm" not in kind
        }

    def test_the_bundle_takes_the_place_of_the_first_script(self):
        def write(folder, *names):
            for name in names:
                with open(os.path.join(folder, name), "w", encoding="utf-8") as file:
                    file.write(name)

        with tempfile.TemporaryDirectory() as page, tempfile.TemporaryDirectory() as folder:
            write(page, "index.html", "share.js", "vt100.js", "keys.js", "mouse.js", "page.bundle.js")
            os.mkdir(os.path.join(page, "view"))
            write(page, "view/view.js")
            write(folder, "vt100.wasm")

            def served(path="/share.js"):
                with unittest.mock.patch.object(_site, "_FOLDERS", (page,)):
                    return page_files(folder).get(path)

            self.assertEqual(served(), ("text/javascript; charset=utf-8", b"page.bundle.js"))
            self.assertIsNone(served("/page.bundle.js"))
            os.remove(os.path.join(page, "page.bundle.js"))
            self.assertEqual(served(), ("text/javascript; charset=utf-8", b"share.js"))
            # The directory of --page may have a bundle, or other scripts.
            write(folder, "page.bundle.js")
            self.assertEqual(served(), ("text/javascript; charset=utf-8", b"page.bundle.js"))
            os.remove(os.path.join(folder, "page.bundle.js"))
            write(page, "page.bundle.js")
            write(folder, "keys.js")
            self.assertEqual(served(), ("text/javascript; charset=utf-8", b"share.js"))

    def test_nothing_is_inline(self):
        text = self.texts["/"]
        self.assertNotRegex(text, r"(?i)<style|\sstyle\s*=|\son\w+\s*=|javascript:")
        for tag in re.findall(r"(?i)<script[^>]*>[^<]*", text):
            self.assertRegex(tag, r'^<script type="module" src="\w+\.js">\s*$')

    def test_no_text_becomes_html(self):
        written = re.compile(
            r"\b(?:innerHTML|outerHTML|srcdoc|insertAdjacentHTML|setHTML\w*|DOMParser"
            r"|createContextualFragment|document\.write\w*|eval|Function)\b[^;\n]*"
        )
        found = [use for text in self.texts.values() for use in written.findall(text)]
        # A constant string.
        self.assertEqual([use for use in found if use != "innerHTML = TEMPLATE"], [])


if __name__ == "__main__":
    unittest.main()
