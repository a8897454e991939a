"""Checks the scripts and the packages with linters. What needs one that is not installed is skipped. The parts of cargo
are not in every Debian, so that without them, nothing is skipped.
"""
import glob
import os
import re
import shutil
import subprocess
import tempfile
import unittest

from sources import read

ROOT = os.path.dirname(os.path.dirname(os.path.dirname(os.path.abspath(__file__))))


def files():
    """Returns the paths of all files, except for the history and what builds write."""
    for folder, folders, names in os.walk(ROOT):
        folders[:] = sorted(it for it in folders if it not in (".git", "out", "target", "__pycache__", "node_modules"))
        yield from (f"{folder}/{name}" for name in sorted(names))


def first_line(path):
    with open(path, "rb") as file:
        return file.readline(100).decode("utf-8", "replace")


def scripts(language, ending):
    """Returns the files whose names end like this, or that begin with `#!` and the language."""
    begin = re.compile(rf"#!.*\b{language}$")
    found = [it for it in files() if it.endswith(ending) or begin.match(first_line(it).rstrip("\n"))]
    assert len(found) > 5, found
    return found


def needs(tool):
    return unittest.skipUnless(shutil.which(tool), f"there is no {tool}")


def has_part_of_cargo(name):
    """Returns whether cargo has a part that is installed separately."""
    words = ["cargo", name, "--version"]
    return shutil.which("cargo") and subprocess.run(words, capture_output=True, check=False).returncode == 0


class Linters(unittest.TestCase):
    def assert_clean(self, *words, **env):
        """Asserts that a linter ends with status 0."""
        ran = subprocess.run(
            words, cwd=ROOT, env={**os.environ, **env}, stdin=subprocess.DEVNULL, stdout=subprocess.PIPE,
            stderr=subprocess.STDOUT, universal_newlines=True, check=False,
        )
        self.assertEqual(ran.returncode, 0, ran.stdout)

    @needs("shellcheck")
    def test_scripts_in_bash(self):
        self.assert_clean("shellcheck", "-x", *scripts("(ba)?sh", ".bash"))

    @needs("pyflakes3")
    def test_unused_and_undefined_names_in_python(self):
        self.assert_clean("pyflakes3", *scripts("python3", ".py"))

    @needs("mypy")
    def test_types_in_python(self):
        packages = ["bindings/python/vt100", "bindings/python/vt100_pytest.py", "share/vt100_share"]
        self.assert_clean("mypy", "--strict", "--cache-dir=/dev/null", *packages, MYPYPATH="bindings/python")

    @needs("tsc")
    def test_types_in_javascript(self):
        sources = [path for place in ("", "lib/", "view/") for path in glob.glob(f"{ROOT}/bindings/js/{place}*.js")]
        self.assertGreater(len(sources), 20)
        target = ["--target", "es2022", "--module", "es2022", "--moduleResolution", "node"]
        self.assert_clean("tsc", "--noEmit", "--allowJs", "--checkJs", *target, *sources)

    @needs("tsc")
    def test_types_in_the_shared_page(self):
        self.assert_clean("tsc", "--project", "share/jsconfig.json")

    def test_format_of_rust(self):
        for path in ("bindings/rust", "bindings/rust/fuzz") if has_part_of_cargo("fmt") else ():
            self.assert_clean("cargo", "fmt", "--check", "--manifest-path", f"{path}/Cargo.toml")

    def assert_no_lints(self, folder, room):
        """Asserts that clippy finds nothing in a package. Nothing is linked, so that an empty library will do."""
        open(f"{room}/libvt100.a", "wb").close()
        self.assert_clean(
            "cargo", "clippy", "--quiet", "--offline", "--all-targets", "--manifest-path", f"{folder}/Cargo.toml", "--",
            "-D", "warnings", VT100_LIB_DIR=room, CARGO_TARGET_DIR=f"{room}/target",
        )

    def test_lints_of_rust(self):
        if not has_part_of_cargo("clippy"):
            return
        with tempfile.TemporaryDirectory() as room:
            for name in ("rust", "rust/refused"):
                self.assert_no_lints(f"bindings/{name}", room)
            shutil.copytree(f"{ROOT}/bindings/rust", f"{room}/rust", ignore=shutil.ignore_patterns("other", "target"))
            shutil.copytree(f"{ROOT}/bindings/rust/src", f"{room}/rust/fuzz/other/src")
            # The crate itself, without its library, takes the place of the other build.
            manifest = re.sub("(links|build) = .*\n", "", read(f"{ROOT}/bindings/rust/Cargo.toml"))
            with open(f"{room}/rust/fuzz/other/Cargo.toml", "w", encoding="utf-8") as file:
                file.write(manifest.replace('"vt100"', '"vt100-other"', 1))
            self.assert_no_lints(f"{room}/rust/fuzz", room)
