"""Runs all tests: see tests/all.

The checks that take only seconds run first; if one of them fails, the script ends. Then rt ci proves everything, and
tests/refusals, which needs no proofs, runs beside it. The tests after these run the programs and use the libraries that
rt ci has built, some side by side. The tests that take very long are run only with --release, and named otherwise.
"""

import argparse
import glob
import os
import shutil
import signal
import sys
import tempfile
import threading
import time

from gate import Gate, Test, named

CORES = len(os.sched_getaffinity(0))
CHECKS = [
    Test(["tests/wrong-edits", "--fit"]),
    *(Test([f"tests/{name}"]) for name in ("documents", "surface", "trust", "imports", "self")),
    Test(["bench/table"]),
]
REFUSALS = Test(["tests/refusals"], 14400)
# RT_JOBS sets the number of proofs at a time. Without it, libraries would wait for wrong edits, since rt ci reserves far
# more memory than proofs take (docs/PROVING.md).
PROOFS = Test(["rt", "ci"], 36000, {"RT_JOBS": str(CORES)})
PROGRAMS = [Test([f"tests/{name}"]) for name in ("programs", "pictures", "scarce")]


def libraries(room):
    """Returns the test that builds the libraries."""
    return Test(["tests/libraries", room], 14400)


def layers(room):
    """Returns the tests of what is built over the library, longest first."""
    wasm = ["--wasm", f"{room}/wasm"]
    library = ["--library", f"{room}/compiled/libvt100_c.a"]
    module = ["--module", f"{room}/compiled/vt100_c.bc"]
    source = ["--source", f"{room}/source"]
    native = ["--native", f"{room}/native"]
    aarch64 = ["--aarch64", f"{room}/compiled-aarch64/libvt100_c.a"]
    yield Test(["tests/targets", *library, *module, *wasm, *native, *aarch64], 14400)
    yield Test(["tests/bindings", *library, *wasm], 14400)
    made = [*native, *wasm, *source]
    yield Test(["tests/packages", "--aarch64", f"{room}/installed-aarch64", *made, f"{room}/installed"], 7200)
    yield Test(["tests/portable", *library, *module, *source], 7200)
    yield Test(["tests/readmes", room], 14400)
    yield Test(["tests/terminfo", f"{room}/installed"])


def with_what_exists(test):
    """Returns a test without the options whose files were not made, since the tools for them are missing."""
    words = [*test.words]
    for option in [it for it in words if it.startswith("--")]:
        at = words.index(option)
        if not os.path.exists(words[at + 1]):
            del words[at : at + 2]
    return test._replace(words=words)


def for_release(room):
    """Returns the tests that take very long, or prove the library once more."""
    yield Test(["tests/self", "--proved"], 7200)
    yield Test(["tests/terminfo-programs", f"{room}/installed"])
    yield Test(["tests/wrong-edits", "--jobs", str(CORES)], 180000)


def prove(gate):
    """Runs rt ci, and tests/refusals beside it. At its end, rt ci would put libraries that earlier commands built back
    in place of its own.
    """
    beside = threading.Thread(target=gate.run, args=[REFUSALS])
    beside.start()
    for folder in glob.glob("crates/*/out/rlib"):
        shutil.rmtree(folder)
    gate.run_counted(PROOFS)
    return beside


def run_all(gate, room, is_release):
    """Runs the tests in their order. One processor stays free for what the tests wait for."""
    if not gate.run_together(CHECKS, CORES):
        return
    beside = prove(gate)
    gate.run_together([libraries(room), *PROGRAMS], 2)
    if os.path.isdir(f"{room}/installed"):
        gate.run_together([with_what_exists(it) for it in layers(room)], max(1, CORES - 1))
    else:
        gate.skip(layers(room), "the library is not built")
    if is_release:
        gate.run_together(for_release(room), 1)
    beside.join()


def main():
    parser = argparse.ArgumentParser(usage="all [--complete] [--release]")
    parser.add_argument("--complete", action="store_true")
    parser.add_argument("--release", action="store_true")
    given = parser.parse_args()
    signal.signal(signal.SIGTERM, lambda *_: sys.exit(143))
    begun = time.monotonic()
    gate = Gate(lambda: time.monotonic() - begun)
    with tempfile.TemporaryDirectory() as room:
        try:
            run_all(gate, room, given.release)
        finally:
            gate.end()
    if not given.release:
        print("only with --release:", *(named(it) for it in for_release(room)), sep="\n  ")
    print(*gate.report(), sep="\n")
    return gate.status or int(given.complete and bool(gate.left_out))


if __name__ == "__main__":
    sys.exit(main())
