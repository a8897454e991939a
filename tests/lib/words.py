"""Finds retired words in comments and documents. The right-hand column of RETIRED says what to write instead."""
import glob
import re

from sources import read

RETIRED = (
    (r"\banswer(?:s|ed)?\b", "returns"),
    (r"\blen[dt]s?\b", "borrows, takes a reference to, passes"),
    (r"(?<!fall )(?<!left )(?<!leave )\bbehind\b", "after"),
    (r"^The same\b(?! is)", "the noun"),
    (r"\bwant of memory\b|\bmemory is refused\b", "out of memory; the allocation fails"),
    (r"\b(?:tells|calls) nobody\b", "invokes no callbacks"),
    (r"\bgo(?:es)? on below\b", "is wrapped"),
)

# Where a word is meant as it is: the end of a file's name, the word, and what is meant.
ALLOWED = (
    ("docs/ARCHITECTURE.md", "answers", "files of proofs"),
    ("docs/PROVING.md", "answers", "files of proofs"),
    ("docs/SECURITY.md", "answers", "a terminal's reply to a query"),
    ("bindings/README.md", "behind", "what a header hides"),
)
COMMENT = {".rt": r"(?:^|\s)//[/!]? ?(.*)$", ".antt": r"(?:^|\s)-- ?(.*)$"}
PLACES = ("README.md", "docs/*.md", "crates/*.md", "crates/*/*.md", "bindings/*.md", "bindings/*/*.md", "crates/*/src/**/*.rt",
          "crates/*/specs/**/*.antt", "crates/*/proofs/**/*.antt")


def texts_of(path, text):
    """Yields the lines of prose in a file, with their numbers: the comments of sources, and documents without code."""
    ending = path[path.rindex("."):]
    is_code = False
    for number, line in enumerate(text.split("\n"), 1):
        if ending in COMMENT:
            found = re.search(COMMENT[ending], line)
            if found:
                yield number, found[1]
            continue
        is_code ^= line.startswith("```")
        if not is_code:
            yield number, line


def is_allowed(path, word):
    return any(path.endswith(end) and word == allowed for end, allowed, _ in ALLOWED)


def retired_in(path, text):
    """Yields, for each retired word in a file, its line number, the word, and what to write instead."""
    for number, line in texts_of(path, text):
        prose = re.sub(r"`[^`]*`", "``", line)
        for pattern, instead in RETIRED:
            for found in re.finditer(pattern, prose):
                if not is_allowed(path, found[0]):
                    yield number, found[0], instead


def check(root):
    """Returns a line for each retired word, and the number of files read."""
    paths = sorted(path for place in PLACES for path in glob.glob(f"{root}/{place}", recursive=True))
    found = ((path, it) for path in paths for it in retired_in(path, read(path)))
    lines = [f"{path[len(root) + 1:]}:{number}: {word!r}: write {instead}" for path, (number, word, instead) in found]
    return lines, len(paths)
