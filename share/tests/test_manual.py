"""Tests that the manual page of vt100-share agrees with what --help prints."""

import argparse
import os
import re
import shutil
import subprocess
import sys
import unittest
from unittest import mock

import vt100
from vt100_share import __main__ as program

TESTS = os.path.dirname(os.path.abspath(__file__))
PAGE = os.path.join(TESTS, "..", "vt100-share.1")

#: What the server reads from its environment.
VARIABLES = {
    "VT100_SHARE_READ", "VT100_SHARE_WRITE", "VT100_SHARE_RELAY", "REDISCLI_AUTH", "VT100_PAGE",
}


def text_of(lines):
    """Returns lines of a manual page without requests and escapes."""
    words = []
    for line in lines:
        line = re.sub(r"\\f.", "", line).replace("\\-", "-")
        request, _, rest = line.partition(" ")
        if request in (".BI", ".BR", ".RI", ".IR"):
            parts = re.findall(r'"([^"]*)"|(\S+)', rest)
            words.append("".join(quoted or plain for quoted, plain in parts))
        elif request in (".B", ".I"):
            words.append(rest)
        elif not line.startswith("."):
            words.append(line)
    return " ".join(words)


def sections(path):
    """Returns the lines of each section and subsection of a manual page."""
    found = {}
    with open(path, encoding="utf-8") as file:
        for line in file.read().splitlines():
            if line.startswith((".SH ", ".SS ")):
                lines = found.setdefault(line[4:], [])
            elif not line.startswith(".TH "):
                lines.append(line)
    return found


def options_in(lines):
    """Returns the options in lines of a manual page, with the names of their values, and what is
    said about them."""
    items = "\n".join(lines).split(".TP\n")[1:]
    texts = [item.splitlines() for item in items]
    return {text_of(text[:1]): text_of(text[1:]) for text in texts}


def options_of(parser):
    """Returns the same of a parser."""
    found = {}
    for action in parser._actions:
        if isinstance(action, argparse._HelpAction) or not action.option_strings:
            continue
        value = f" {action.metavar}" if action.nargs != 0 else ""
        found[action.option_strings[0] + value] = action.help
    return found


@unittest.skipUnless(os.path.exists(PAGE), "there is no manual page")
class Manual(unittest.TestCase):
    def setUp(self):
        self.sections = sections(PAGE)

    def _compare(self, described, parser):
        for option, text in options_of(parser).items():
            with self.subTest(option=option):
                self.assertIn(option, described)
                self.assertTrue(described[option].lower().startswith(text.lower() + "."), text)

    def test_options(self):
        described = options_in(self.sections["OPTIONS"])
        parser = program._parser()
        self.assertEqual(set(described), set(options_of(parser)))
        self._compare(described, parser)

    def test_options_of_relays(self):
        described, parser = self.sections["Options of relays"], program._relay_parser()
        own = options_in(described)
        named = set(re.findall(r"--[a-z]+", text_of(described)))
        self.assertEqual(named, {option.split()[0] for option in options_of(parser)})
        self._compare({**options_in(self.sections["OPTIONS"]), **own}, parser)

    def test_options_of_viewers(self):
        described, parser = options_in(self.sections["Viewers in a terminal"]), program._attach_parser()
        self.assertEqual(set(described), set(options_of(parser)))
        self._compare(described, parser)

    def test_defaults(self):
        parsers = (
            (program._parser(), []),
            (program._relay_parser(), ["redis://host"]),
            (program._attach_parser(), ["http://host/#token"]),
        )
        for parser, words in parsers:
            values = vars(parser.parse_args(words))
            for option, text in options_of(parser).items():
                default = re.search(r"\(default: ([^ )]+)\)", text)
                value = values.get(option.split()[0][2:])
                value = f"{value:g}" if isinstance(value, float) else str(value)
                if default is None:
                    self.assertIn(value, ("None", "False", "[]"), option)
                elif not default.group(1).startswith(("any", "$")):
                    self.assertEqual(default.group(1), value)

    def test_synopsis(self):
        lines = [line for line in self.sections["SYNOPSIS"] if line != ".br"]
        text = text_of(lines).replace("COMMAND [ARGUMENT...]", "COMMAND..")
        usage = " ".join(program._parser().usage.split())
        self.assertEqual(text, usage)
        self.assertIn(program._relay_parser().usage, usage)

    def test_environment(self):
        named = set(re.findall(r"[A-Z][A-Z0-9_]{5,}", text_of(self.sections["ENVIRONMENT"])))
        self.assertEqual(named, VARIABLES)
        sources = ""
        folder = os.path.dirname(program.__file__)
        for name in os.listdir(folder):
            if name.endswith(".py"):
                with open(os.path.join(folder, name), encoding="utf-8") as file:
                    sources += file.read()
        for name in VARIABLES:
            self.assertIn(f'"{name}"', sources)

    def test_examples_are_command_lines(self):
        for example in options_in(self.sections["EXAMPLES"]):
            words = example.split()
            self.assertEqual(words[0], "vt100-share")
            self.assertTrue(program._arguments(words[1:]).command)

    def test_version(self):
        command = [sys.executable, "-m", "vt100_share", "--version"]
        done = subprocess.run(command, stdout=subprocess.PIPE, check=True)
        self.assertEqual(done.stdout.decode(), f"vt100-share {vt100.__version__}\n")

    @unittest.skipUnless(shutil.which("man"), "there is no man")
    def test_it_is_formatted_without_warnings(self):
        command = ["man", "--warnings", "-E", "ascii", "-l", PAGE]
        with mock.patch.dict(os.environ, MANWIDTH="80"):
            done = subprocess.run(command, stdout=subprocess.PIPE, stderr=subprocess.PIPE, check=True)
        self.assertEqual(done.stderr, b"")
        self.assertIn(b"vt100-share - show a terminal", done.stdout)


if __name__ == "__main__":
    unittest.main()
