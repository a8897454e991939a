"""bench.py: prints how many milliseconds each method takes to read a colored screen of 24x80."""

import time

import vt100


def screen():
    """Returns a parser whose screen is full of colored words."""
    parser = vt100.Parser(24, 80)
    for row in range(24):
        words = (b"\x1b[%dmword %d\x1b[m " % (30 + col % 8, row + col) for col in range(9))
        parser.process(b"\x1b[%dH%b" % (row + 1, b"".join(words)))
    return parser


def best_of(function, runs=20):
    """Returns the smallest processor time, in milliseconds, of several runs of a function."""
    times = []
    for _ in range(runs):
        begin = time.process_time()
        function()
        times.append(time.process_time() - begin)
    return min(times) * 1e3


def main():
    parser = screen()
    saved = parser.save()
    for name, function in (
        ("cell(row, col)", lambda: [parser.cell(y, x) for y in range(24) for x in range(80)]),
        ("cells(row)", lambda: [parser.cells(row) for row in range(24)]),
        ("buffer", lambda: parser.buffer),
        ("display", lambda: parser.display),
        ("rows()", parser.rows),
        ("find(text)", lambda: parser.find("word 20")),
        ("dirty()", parser.dirty),
        ("==", lambda: parser == saved),
    ):
        print(f"{name:15} {best_of(function):6.2f} ms")


if __name__ == "__main__":
    main()
