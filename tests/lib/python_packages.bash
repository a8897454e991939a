# The tests of the wheel, and of the Python package that is installed from its sources, which tests/packages reads and runs
# by calling in_python. Its functions and variables are used here.
# shellcheck shell=bash disable=SC2154

# The environment can use other installed packages, so that it has pytest if that is installed.
install_wheel() {
  python3 -m venv --system-site-packages environment \
    && environment/bin/python -m pip install --quiet --no-index --no-deps \
      --disable-pip-version-check "$made"/*-manylinux*_x86_64.whl \
    && environment/bin/python -m pip show --files vt100 >shown \
    && grep -qx "Version: $crate.post$port" shown && grep -q '/LICENSE$' shown \
    && { [ -z "$wasm" ] || grep -q 'vt100_share/page/vt100.wasm$' shown; } \
    && { [ -z "$wasm" ] || ! command -v esbuild || grep -q 'vt100_share/page/page.bundle.js$' shown; }
}

# installs_sources: whether pip installs the same files of the package from its sources.
installs_sources() {
  mkdir -p sources/bindings && cp -R "$root/bindings/python" sources/bindings && cp -R "$root/share" sources \
    && environment/bin/python -m pip install --quiet --no-index --no-deps --no-build-isolation \
      --disable-pip-version-check --target from-sources ./sources/bindings/python \
    && diff <(cd sources/bindings/python && find vt100 vt100_pytest.py -type f ! -name '*.pyc' | sort) \
      <(cd from-sources && find vt100 vt100_pytest.py -type f ! -name '*.pyc' | sort) \
    && diff <(cd sources/share && find vt100_share -type f ! -name '*.pyc' | sort) \
      <(cd from-sources && find vt100_share -type f ! -name '*.pyc' | sort) \
    && ls from-sources/bin/vt100-share
}

# An environment with no variables except PATH.
run_installed() {
  env -i PATH=/usr/bin:/bin bash -c \
    "$(declare -f python_program); room=$room; python_program environment/bin/python environment"
}

# The examples, copied away from the sources next to them, in the same environment.
run_examples() {
  cp -R "$root/bindings/python/examples" examples && cd examples || return
  env -i PATH=/usr/bin:/bin ../environment/bin/python -m "$@"
}

# describes: whether the metadata of the wheel has the README, and the module has the version of the wheel.
describes() {
  cat >described.py <<'END'
import importlib.metadata as metadata
import vt100

found = metadata.metadata("vt100")
text = found.get_payload() or found["Description"]
assert "# vt100 for Python" in text and "](examples/" not in text, text
assert found["Description-Content-Type"] == "text/markdown"
assert vt100.__version__ == metadata.version("vt100"), vt100.__version__
END
  env -i PATH=/usr/bin:/bin environment/bin/python described.py
}

# has_entry: whether programs get the terminfo entry that is in the wheel.
has_entry() {
  cat >entry.py <<'END'
from vt100.testing import Terminal

with Terminal("sh -c 'echo $TERM $TERMINFO; tput U8'") as terminal:
    terminal.wait_end()
    print(terminal.screen.contents())
END
  env -i PATH=/usr/bin:/bin environment/bin/python entry.py >entry \
    && grep -q '^caldrosk-256color .*/environment/.*/vt100/terminfo' <(tr -d '\n' <entry) && grep -qx 1 entry
}

# shares: whether the wheel's vt100-share serves a page with the module; without the module in the wheel, whether it
# says so.
shares() {
  local status=0
  env -i PATH=/usr/bin:/bin environment/bin/vt100-share --headless -- true >shared 2>&1 || status=$?
  if [ -z "$wasm" ]; then
    [ "$status" -eq 2 ] && grep -q 'the page has no ' shared
  else
    [ "$status" -eq 0 ] && grep -q '^watch: http://127.0.0.1:' shared
  fi
}

# shares_nothing: whether the wheel's vt100-share says that it needs websockets, in an environment without it.
shares_nothing() {
  local status=0
  python3 -m venv --without-pip bare && cp -R environment/lib/python3*/site-packages/vt100* bare/lib/python3*/site-packages || return
  env -i PATH=/usr/bin:/bin bare/bin/python -m vt100_share --headless -- true >shared 2>&1 || status=$?
  [ "$status" -eq 2 ] && grep -q 'websockets is required' shared
}

# has_manual: whether the wheel installs the manual page of vt100-share, which man formats without a warning.
has_manual() {
  MANWIDTH=80 man --warnings -E ascii -l environment/share/man/man1/vt100-share.1 >page 2>warnings \
    && [ ! -s warnings ] && grep -qF "Caldrosk $crate.post$port" page && ! grep -E '@(DAY|VERSION)@' page
}

# compares: whether pytest has the fixture, and says what differs between two screens.
compares() {
  mkdir compared && cat >compared/test_compared.py <<'END'
import vt100

def test_screens():
    assert vt100.Parser(2, 5) == vt100.Parser(2, 6)

def test_fixture(vt100_terminal):
    vt100_terminal("echo text").wait_for("text")
END
  ! env -i PATH=/usr/bin:/bin environment/bin/python -m pytest -q -p no:cacheprovider compared >compared/said \
    && grep 'size: (2, 5) != (2, 6)' compared/said && grep '1 failed, 1 passed' compared/said
}

in_python() {
  try 'wheel is installed' install_wheel
  try 'wheel: records and metadata' python3 -B "$root/tests/lib/wheel.py" "$made"/*-manylinux*_x86_64.whl \
    "$root/bindings/python/pyproject.toml"
  if has_module setuptools "$room/environment/bin/python" && has_module wheel "$room/environment/bin/python"; then
    try 'Python: installed from sources' installs_sources
  fi
  try 'wheel: a program' run_installed
  try 'wheel: description and version' describes
  if has_module websockets "$room/environment/bin/python"; then try 'wheel: vt100-share' shares; fi
  try 'wheel: vt100-share without websockets' shares_nothing
  has man && try 'wheel: manual page' has_manual
  if [ -e terminfo/caldrosk.ti ] && has tic tput; then try 'wheel: terminfo' has_entry; fi
  if has_module pytest "$room/environment/bin/python"; then
    try 'wheel: examples' run_examples pytest -q -p no:cacheprovider .
    try 'wheel: pytest compares screens' compares
  fi
}
