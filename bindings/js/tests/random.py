"""random.py FILE COUNT STRIDE ROWS COLS SCROLLBACK: processes the inputs that random.test.js wrote to FILE.

FILE holds the lengths of COUNT inputs in 4 bytes each, and then the inputs. Prints the SHA-256 of all output so far
after each STRIDE inputs.
"""
import hashlib
import os
import struct
import sys

sys.path.insert(0, os.path.join(os.path.dirname(os.path.abspath(__file__)), "..", "..", "python"))
import vt100  # noqa: E402


def main():
    file = sys.argv[1]
    count, stride, rows, cols, scrollback = map(int, sys.argv[2:])
    with open(file, "rb") as it:
        lengths = struct.unpack(f"<{count}I", it.read(4 * count))
        inputs = [it.read(length) for length in lengths]
    digest = hashlib.sha256()
    parser = vt100.Parser(rows, cols, scrollback)
    prev = parser.shown_copy()
    for k, data in enumerate(inputs, 1):
        parser.process(data)
        text = parser.contents_formatted() + parser.contents_diff_scrolling(prev) + parser.contents()
        digest.update(text.encode())
        prev = parser.shown_copy()
        if k % stride == 0:
            print(digest.hexdigest())


main()
