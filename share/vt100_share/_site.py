"""What is served over HTTP, and to whom."""

from __future__ import annotations

import functools
import gzip
import hashlib
import ipaddress
import os
import pathlib
import re
from typing import Any, Dict, List, NamedTuple, Optional, Tuple
from urllib.parse import urlsplit

_PACKAGE = os.path.dirname(os.path.abspath(__file__))

#: Where the files of the page are: those that belong to this package and, in a checkout, the module
#: for JavaScript.
_FOLDERS = (
    os.path.join(_PACKAGE, "page"),
    os.path.join(_PACKAGE, os.pardir, os.pardir, "bindings", "js"),
)
_TYPES = {
    ".html": "text/html; charset=utf-8",
    ".css": "text/css; charset=utf-8",
    ".js": "text/javascript; charset=utf-8",
    ".wasm": "application/wasm",
}
#: The directories of the page's files.
_PARTS = ("", "lib", "view")

#: Files without which the page cannot work.
_REQUIRED = (
    "index.html", "share.js", "vt100.js", "keys.js", "mouse.js", "view/view.js", "vt100.wasm"
)

#: All scripts of the page in one file, which `share/bundle` makes. It is served as the first script,
#: which then imports no other file.
_BUNDLE, _FIRST = "/page.bundle.js", "/share.js"

#: The path of the WebSocket.
VIEWER = "/viewer"

#: An Accept-Encoding that permits gzip.
_GZIP = re.compile(r"(?:^|,)\s*gzip\s*(?:;(?!\s*q=0(?:\.0*)?\s*(?:,|$))|,|$)", re.IGNORECASE)

_HEADERS = [
    ("Connection", "close"),
    ("Vary", "Accept-Encoding"),
    ("Referrer-Policy", "no-referrer"),
    ("X-Content-Type-Options", "nosniff"),
    ("X-Frame-Options", "DENY"),
    ("Cross-Origin-Opener-Policy", "same-origin"),
    ("Cross-Origin-Resource-Policy", "same-origin"),
    (
        "Content-Security-Policy",
        "default-src 'none'; script-src 'self' 'wasm-unsafe-eval'; "
        "style-src 'self'; connect-src 'self'; img-src data:; "
        "base-uri 'none'; form-action 'none'; frame-ancestors 'none'",
    ),
]


class Missing(Exception):
    """Raised if a file of the page is missing."""


class Response(NamedTuple):
    status: int
    reason: str
    headers: List[Tuple[str, str]]
    body: bytes


class _File:
    """A file of the page."""

    def __init__(self, kind: str, body: bytes) -> None:
        self.kind, self.body = kind, body
        #: What tells whether a browser has this file.
        self.tag = f'W/"{hashlib.sha256(body).hexdigest()[:16]}"'

    @functools.cached_property
    def packed(self) -> bytes:
        """The compressed file."""
        return gzip.compress(self.body, mtime=0)


def page_files(folder: Optional[str]) -> Dict[str, Tuple[str, bytes]]:
    """Returns the files of the page by their paths, with their media types. Files in `folder` take
    precedence, and if there are scripts among them, the page uses no other bundle. Raises `Missing`
    if there is a file without which the page cannot work."""
    files = {path: file for place in _FOLDERS[::-1] for path, file in _files_below(place).items()}
    own = _files_below(folder) if folder else {}
    if any(path.endswith(".js") for path in own):
        files.pop(_BUNDLE, None)
    files.update(own)
    for name in _REQUIRED:
        if "/" + name not in files:
            raise Missing(f"the page has no {name}; --page or VT100_PAGE names a directory with it")
    files["/"], files[_FIRST] = files["/index.html"], files.pop(_BUNDLE, files[_FIRST])
    return files


def _files_below(place: str) -> Dict[str, Tuple[str, bytes]]:
    found = {}
    for part in _PARTS:
        for path in pathlib.Path(place, part).glob("*"):
            if path.suffix in _TYPES:
                name = path.relative_to(place).as_posix()
                found[f"/{name}"] = _TYPES[path.suffix], path.read_bytes()
    return found


def public_address(text: str) -> str:
    """Returns an address of the page. Raises `ValueError` if it is not one."""
    parts = urlsplit(text)
    if parts.scheme not in ("http", "https") or not parts.hostname or "@" in parts.netloc:
        raise ValueError(text)
    if parts.query or parts.fragment or parts.port == 0 or not text.isprintable():
        raise ValueError(text)
    return text if parts.path else f"{text}/"


class Site:
    """The files of the page, and the names by which the server may be reached.

    A page of another site can reach this server from its reader's browser, by a name of its own
    that resolves to this machine or by a WebSocket, which the same-origin policy does not cover. So
    the name in the request must be an address, "localhost", `host`, or that of a public address,
    and a WebSocket must come from this site's own page.
    """

    def __init__(self, files: Dict[str, Tuple[str, bytes]], host: str, public: List[str]) -> None:
        self._files = {path: _File(*file) for path, file in files.items()}
        self._names = {"localhost", host.lower()}
        self._origins = set()
        for address in public:
            parts = urlsplit(address)
            self._names.add((parts.hostname or "").lower())
            origin = f"{parts.scheme}://{parts.netloc}".lower()
            port = ":443" if parts.scheme == "https" else ":80"
            # Browsers leave out the usual port.
            self._origins |= {origin, origin[: -len(port)] if origin.endswith(port) else origin}

    def respond(self, method: str, target: str, headers: Any) -> Optional[Response]:
        """Returns the response to a request, or None for a WebSocket that is allowed."""
        hosts, origins = headers.get_all("Host"), headers.get_all("Origin")
        if len(hosts) != 1 or not self._is_known(hosts[0]):
            return _text(421, "Misdirected Request", "this is not the name of this server")
        path = target.partition("?")[0].partition("#")[0]
        if method != "GET" and (method != "HEAD" or path == VIEWER):
            return _text(405, "Method Not Allowed", "a request has the method GET", ("Allow", "GET, HEAD"))
        if path == VIEWER:
            if origins and [origin.lower() for origin in origins] != [f"http://{hosts[0]}".lower()]:
                if len(origins) != 1 or origins[0].lower() not in self._origins:
                    return _text(403, "Forbidden", "a page of another site may not connect")
            return None
        if path not in self._files:
            return _text(404, "Not Found", "there is no such page")
        return _file(self._files[path], headers)

    def _is_known(self, host: str) -> bool:
        try:
            name = urlsplit(f"//{host}").hostname or ""
        except ValueError:
            return False
        if name in self._names:
            return True
        try:
            ipaddress.ip_address(name)
        except ValueError:
            return False
        return True


def _file(file: _File, headers: Any) -> Response:
    """Returns the response with a file, unless the browser has it."""
    known = ",".join(headers.get_all("If-None-Match")).split(",")
    more = [("ETag", file.tag), ("Cache-Control", "no-cache"), *_HEADERS]
    if file.tag in map(str.strip, known):
        return Response(304, "Not Modified", more, b"")
    body = file.body
    if _GZIP.search(",".join(headers.get_all("Accept-Encoding"))) and len(file.packed) < len(body):
        body = file.packed
        more.append(("Content-Encoding", "gzip"))
    return Response(200, "OK", [*_of_body(file.kind, body), *more], body)


def _of_body(kind: str, body: bytes) -> List[Tuple[str, str]]:
    return [("Content-Type", kind), ("Content-Length", str(len(body)))]


def _text(status: int, reason: str, text: str, *more: Tuple[str, str]) -> Response:
    body = text.encode() + b"\n"
    kind = _of_body("text/plain; charset=utf-8", body)
    return Response(status, reason, [*kind, *more, ("Cache-Control", "no-store"), *_HEADERS], body)
