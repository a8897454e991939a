"""vt100-share: shows a running program to viewers in browsers.

    vt100-share [OPTIONS] -- COMMAND..       runs a program
    vt100-share [OPTIONS] --play FILE.cast   plays a recording
    vt100-share relay [OPTIONS] URL          shows what another server publishes
    vt100-share attach [OPTIONS] URL         shows a shared terminal in this terminal
"""

from __future__ import annotations

import argparse
import os
import shlex
import sys
from typing import Callable, List, Optional, Tuple

from vt100 import __version__

from ._attach import Refused, attach
from ._display import is_available, terminal_size
from ._history import MAX_ROWS as MAX_SCROLLBACK
from ._keys import ProgramKeys, keys_of
from ._loop import run as run_loop
from ._messages import MAX_COLS, MAX_ROWS
from ._play import BadRecording, Cast, Playback
from ._menu import BadKey, key_from
from ._program import COMMON_TERM, Program, default_term, environment
from ._publish import Publisher
from ._recording import Recording
from ._redis import BadAddress, Redis, text_of
from ._relay import Relay
from ._run import Fault, Run, say
from ._share import Audience, Share
from ._site import Missing, Site, page_files, public_address
from ._sockets import NoLibrary
from ._stream import names_of
from ._viewers import BadToken, Tokens, new_token, token_from

#: The environment variable with the token by which relays type.
_RELAY_TOKEN = "VT100_SHARE_RELAY"


def _size(text: str) -> Tuple[int, int]:
    rows, _, cols = text.partition("x")
    if not (rows.isdecimal() and cols.isdecimal()):
        raise argparse.ArgumentTypeError("a size is ROWSxCOLS, as in 24x80")
    if not (1 <= int(rows) <= MAX_ROWS and 1 <= int(cols) <= MAX_COLS):
        raise argparse.ArgumentTypeError(f"a size is at most {MAX_ROWS}x{MAX_COLS}")
    return int(rows), int(cols)


def _key(text: str) -> str:
    try:
        key_from(text)
    except BadKey as fault:
        raise argparse.ArgumentTypeError(str(fault)) from None
    return text


def _row_count(text: str) -> int:
    if not text.isdecimal() or int(text) > MAX_SCROLLBACK:
        raise argparse.ArgumentTypeError(f"a number of rows is from 0 to {MAX_SCROLLBACK}")
    return int(text)


def _parser() -> argparse.ArgumentParser:
    parser = argparse.ArgumentParser(
        prog="vt100-share",
        usage="vt100-share [OPTIONS] -- COMMAND..\n"
        "       vt100-share [OPTIONS] --play FILE.cast\n"
        "       vt100-share relay [OPTIONS] URL\n"
        "       vt100-share attach [OPTIONS] URL",
        description="Shows a running program to viewers in browsers.",
        epilog="vt100-share relay --help describes the options of relays, and vt100-share attach "
        "--help those of a viewer in a terminal.",
    )
    add = parser.add_argument
    _add_server_options(parser)
    add("--write", action="store_true", help="print a second address, whose readers may type")
    add("--size", type=_size, metavar="ROWSxCOLS",
        help="the size of the program's terminal, which then stays the same (default: that of this "
        "terminal, whose changes it follows, or 24x80)")
    add("--scrollback", type=_row_count, default=0, metavar="N",
        help=f"let viewers scroll back by N rows, at most {MAX_SCROLLBACK} (default: 0)")
    add("--term", metavar="NAME",
        help=f"the value of TERM for the program (default: {COMMON_TERM}, if this system has it)")
    add("--key", type=_key, default="ctrl-]", metavar="KEY",
        help="the key that opens a line at the bottom: ctrl- and a character, or none (default: "
        "ctrl-])")
    add("--headless", action="store_true", help="do not show the program in this terminal")
    add("--record", metavar="FILE.cast", help="record the output, for asciinema and other players")
    add("--force", action="store_true", help="overwrite the file of --record")
    add("--play", metavar="FILE.cast", help="play a recording instead of running a program")
    add("--speed", type=_speed, default=1.0, metavar="N",
        help="play N times as fast, from 0.001 to 1000 (default: 1)")
    add("--publish", metavar="URL", help="also publish to relays, through the Redis server at URL")
    _add_stream(parser)
    add("--version", action="version", version=f"vt100-share {__version__}", help="print the version")
    add("command", nargs="*", metavar="COMMAND", help="the program and its arguments")
    return parser


def _arguments(given: Optional[List[str]]) -> argparse.Namespace:
    parser = _parser()
    options = parser.parse_args(given)
    if (options.play is None) == (not options.command):
        parser.error("either COMMAND or --play FILE.cast is required")
    if options.play is not None and (options.write or options.size or options.record):
        parser.error("--write, --size and --record require COMMAND")
    return options


def _relay_parser() -> argparse.ArgumentParser:
    parser = argparse.ArgumentParser(
        prog="vt100-share relay",
        usage="vt100-share relay [OPTIONS] URL",
        description="Shows what another server publishes to viewers in browsers.",
    )
    _add_server_options(parser)
    parser.add_argument("--write", action="store_true",
        help=f"print a second address, whose readers may type; ${_RELAY_TOKEN} is the token that "
        "the server accepts")
    _add_stream(parser)
    parser.add_argument("url", metavar="URL", help="the address of the Redis server")
    return parser


def _attach_parser() -> argparse.ArgumentParser:
    parser = argparse.ArgumentParser(
        prog="vt100-share attach",
        usage="vt100-share attach [OPTIONS] URL",
        description="Shows a shared terminal in this terminal.",
    )
    parser.add_argument("--write", action="store_true",
        help="type to the program, if the address allows it")
    parser.add_argument("--key", type=_key, default="ctrl-]", metavar="KEY",
        help="the key that opens a line with a command to leave: ctrl- and a character (default: "
        "ctrl-])")
    parser.add_argument("url", metavar="URL",
        help="the address of the page, or - to read it from this terminal")
    return parser


def _add_server_options(parser: argparse.ArgumentParser) -> None:
    add = parser.add_argument
    add("--host", default="127.0.0.1", metavar="HOST",
        help="the address to listen on (default: 127.0.0.1)")
    add("--port", type=int, default=0, metavar="PORT", help="the port to listen on (default: any)")
    add("--public", action="append", default=[], metavar="URL", type=_public,
        help="an address by which a reverse proxy serves the page; may be repeated")
    add("--viewers", type=int, default=1000, metavar="N",
        help="how many viewers may watch at a time (default: 1000)")
    add("--linger", type=float, default=0.0, metavar="SECONDS",
        help="how long to show the last screen after the program has ended (default: 0)")
    add("--page", metavar="FOLDER", default=os.environ.get("VT100_PAGE"),
        help="the directory of vt100.wasm and other files of the page (default: $VT100_PAGE)")


def _add_stream(parser: argparse.ArgumentParser) -> None:
    parser.add_argument("--stream", default="vt100-share", metavar="NAME",
        help="the name of the stream in Redis (default: vt100-share)")


def _public(text: str) -> str:
    try:
        return public_address(text)
    except ValueError:
        raise argparse.ArgumentTypeError(
            "an address of the page is http://HOST/ or https://HOST/"
        ) from None


def _speed(text: str) -> float:
    try:
        number = float(text)
    except ValueError:
        number = 0.0
    if not 0.001 <= number <= 1000:
        raise argparse.ArgumentTypeError("a speed is a number from 0.001 to 1000")
    return number


def _own_size() -> Tuple[int, int]:
    """Returns the size of this terminal, or 24x80 if there is none."""
    return next(filter(None, map(terminal_size, (1, 0, 2))), (24, 80))


def _tokens(can_write: bool) -> Tokens:
    return Tokens(can_write, token_from("VT100_SHARE_READ"), token_from("VT100_SHARE_WRITE"))


async def _run(options: argparse.Namespace) -> int:
    """Shares a program or a recording."""
    site = Site(page_files(options.page), options.host, options.public)
    run = Run(options, not options.headless and is_available())
    cast = _cast(options.play) if options.play is not None else None
    if options.record is not None and not options.force and os.path.isfile(options.record):
        raise Fault(f"cannot record: {options.record} exists; --force overwrites it")
    if options.publish is not None:
        await _prepare_publishing(options, run)

    def begin() -> Audience:
        if cast is not None:
            return Playback(cast, options.speed, run.report, options.scrollback)
        return _start(options, options.size or _own_size(), run.report)

    return await run.run(site, _tokens(options.write), begin)


def _cast(path: str) -> Cast:
    try:
        return Cast(path)
    except OSError as error:
        raise Fault(f"cannot play: {path}: {error.strerror}") from None
    except BadRecording as error:
        raise Fault(f"cannot play: {error}") from None


def _start(
    options: argparse.Namespace, size: Tuple[int, int], report: Callable[[str], None]
) -> Share:
    """Starts the program and the recording."""
    command, path, term = options.command, options.record, options.term or default_term()
    keys = ProgramKeys(keys_of(term, environment(term)))
    try:
        program = Program(command, *size, term)
    except OSError as error:
        raise Fault(f"{command[0]}: {error.strerror}") from None
    try:
        recording = Recording(path, *size, term, report, options.force) if path else None
    except OSError as error:
        program.kill()
        raise Fault(f"cannot record: {path}: {error.strerror}") from None
    return Share(program, *size, recording, options.scrollback, keys)


async def _redis(url: str, name: str) -> Redis:
    """Returns the Redis server, which has been reached."""
    redis = Redis(url)
    try:
        await redis.check(names_of(name).screen, names_of(name).rows)
    except redis.errors as error:
        raise Fault(text_of(redis, error)) from None
    finally:
        await redis.close()
    return redis


async def _prepare_publishing(options: argparse.Namespace, run: Run) -> None:
    redis = await _redis(options.publish, options.stream)
    token = (token_from(_RELAY_TOKEN) or new_token()) if options.write else None
    relay = "vt100-share relay"
    if token is not None:
        relay = f"{_RELAY_TOKEN}={token} {relay} --write"
    print(f"relay: {relay} --stream {shlex.quote(options.stream)} {redis.label}", flush=True)
    run.publish = lambda share: Publisher(
        share, redis, options.stream, run.report, token, options.linger
    )


async def _run_relay(options: argparse.Namespace) -> int:
    """Shares what another server publishes."""
    site = Site(page_files(options.page), options.host, options.public)
    token = token_from(_RELAY_TOKEN) if options.write else None
    if options.write and token is None:
        raise Fault(f"--write requires ${_RELAY_TOKEN}, the token that the server has printed")
    run = Run(options, is_shown=False)
    redis = await _redis(options.url, options.stream)
    return await run.run(
        site, _tokens(options.write), lambda: Relay(redis, options.stream, run.report, token)
    )


async def _run_attached(options: argparse.Namespace) -> int:
    """Shows a shared terminal in this terminal."""
    if not is_available():
        raise Fault("attach requires a terminal as its standard input and output")
    key = key_from(options.key)
    if key is None:
        raise Fault("attach requires a key that opens the line with the command to leave")
    address = input("Address: ").strip() if options.url == "-" else options.url
    return await attach(address, options.write, key)


#: The first words that are no programs, and what they do.
_COMMANDS = {"relay": (_relay_parser, _run_relay), "attach": (_attach_parser, _run_attached)}


def main(given: Optional[List[str]] = None) -> int:
    """Runs the program. Returns the exit status: that of COMMAND, or 2 for a fault."""
    _open_standard_files()
    words = sys.argv[1:] if given is None else given
    make_parser, run = _COMMANDS.get(words[0] if words else "", (None, _run))
    try:
        options = _arguments(words) if make_parser is None else make_parser().parse_args(words[1:])
        return run_loop(run(options))
    except (BadAddress, BadToken, Fault, Missing, NoLibrary, Refused) as fault:
        say(str(fault))
    except BrokenPipeError:
        say("nobody reads the standard output")
        os.dup2(os.open(os.devnull, os.O_WRONLY), 1)  # what is left is written at exit
    return 2


def _open_standard_files() -> None:
    """Opens the standard files that are closed, whose numbers other files would get."""
    for number in range(3):
        try:
            os.fstat(number)
        except OSError:
            os.open(os.devnull, os.O_RDWR)


if __name__ == "__main__":
    sys.exit(main())
